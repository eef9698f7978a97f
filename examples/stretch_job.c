/* The words of stretch's command, the key's file, and the counter that is made from a run's number. */
#define _POSIX_C_SOURCE 200809L
#include "stretch_job.h"
#include "fox.h"

#include <errno.h>
#include <fcntl.h>
#include <getopt.h>
#include <inttypes.h>
#include <stdarg.h>
#include <stdio.h>
#include <string.h>
#include <sys/stat.h>
#include <unistd.h>

static const char usage[] =
    "usage: stretch seal|open --cipher 64|128 --rounds N KEY COUNTER [OPTION].. FILE\n"
    "\n"
    "Seals a file or opens a sealed one: all of it, or a stretch, which is some bytes from any byte on.\n"
    "\n"
    "  -c, --cipher 64|128   FOX64 or FOX128\n"
    "  -r, --rounds N        12 to 255; take 16 or more to seal something new\n"
    "KEY is one of\n"
    "  -k, --key-file NAME   the key from a file, or from standard input where NAME is -: up to 64 hex digits, two to\n"
    "                        a byte, with or without a line feed after them; to seal 32 or more, made at random\n"
    "      --key DIGITS      the key itself: every user of the machine can see it in the list of processes when the\n"
    "                        command begins, and the shell may keep it among its old commands\n"
    "      --empty-key       the key of 0 bytes, which is no secret: it opens, and to seal with it is refused; without\n"
    "                        this an empty key is taken for a mistake\n"
    "COUNTER is one of\n"
    "  -n, --number N        the number of the run, 0 to 4294967295: its counter block is made from it\n"
    "      --counter DIGITS  the counter block that the run begins with, 16 hex digits for cipher 64 and 32 for 128\n"
    "OPTION is any of\n"
    "  -f, --from BYTE       the first byte of the stretch, counted from 0; without it 0\n"
    "  -l, --length BYTES    how many bytes; without it all to the file's end\n"
    "  -o, --output NAME     write to a new file of this name, and not to standard output\n"
    "      --card            work by the card engine, which is slow; the bytes are the same\n"
    "  -h, --help            say this, and do nothing else\n"
    "      --version         say the version, and do nothing else\n"
    "\n"
    "Give each run under one key another value in the bytes before the last four, and set the last four to zero:\n"
    "--number does so with another number for each run. A file that was changed and is sealed again is another run.\n"
    "Two runs that share a counter block can be read from one another, without the key. With cipher 64 there are\n"
    "only four such bytes, and one key should seal no more than 1 GiB in all.\n"
    "Keep cipher, rounds and number with the sealed file: they are no secret. A wrong one, as a wrong key, is not\n"
    "noticed when a file is opened: other bytes come out.\n"
    "Under a key of fewer than 32 digits nothing is sealed, and no file is made (refusal 13). What was sealed under\n"
    "such a key is opened with it. The key can be found by trying, so seal what was opened anew, under a longer one.\n"
    "A run has at most 1073741824 bytes. The exit status is 0 for success, 1 for a refusal or trouble with a file,\n"
    "2 for wrong words.\n"
    "\n"
    "A night's key, two files sealed, and 100 bytes of one opened:\n"
    "  (umask 077; od -An -v -tx1 -N16 /dev/urandom | tr -dc 0-9a-f >night.key)\n"
    "  stretch seal -c 128 -r 16 -k night.key -n 1 -o scan1.sealed scan1.raw\n"
    "  stretch seal -c 128 -r 16 -k night.key -n 2 -o scan2.sealed scan2.raw\n"
    "  stretch open -c 128 -r 16 -k night.key -n 1 -f 4096 -l 100 scan1.sealed\n";

static const char version[] = "stretch " FOX_VERSION "\n";

int complain(int status, const char *format, ...)
{
    va_list values;
    va_start(values, format);
    fputs("stretch: ", stderr);
    vfprintf(stderr, format, values);
    fputc('\n', stderr);
    va_end(values);
    return status;
}

/* The options: what each was given with, and NULL for those that were not given. */

enum { CIPHER, ROUNDS, KEY_FILE, KEY, EMPTY_KEY, NUMBER, COUNTER, FROM, LENGTH, OUTPUT, CARD, HELP, VERSION, OPTIONS };

/* Those with no letter have a number above all letters. */
static const struct option known[OPTIONS + 1] = {
    [CIPHER] = {"cipher", required_argument, NULL, 'c'},
    [ROUNDS] = {"rounds", required_argument, NULL, 'r'},
    [KEY_FILE] = {"key-file", required_argument, NULL, 'k'},
    [KEY] = {"key", required_argument, NULL, 256 + KEY},
    [EMPTY_KEY] = {"empty-key", no_argument, NULL, 256 + EMPTY_KEY},
    [NUMBER] = {"number", required_argument, NULL, 'n'},
    [COUNTER] = {"counter", required_argument, NULL, 256 + COUNTER},
    [FROM] = {"from", required_argument, NULL, 'f'},
    [LENGTH] = {"length", required_argument, NULL, 'l'},
    [OUTPUT] = {"output", required_argument, NULL, 'o'},
    [CARD] = {"card", no_argument, NULL, 256 + CARD},
    [HELP] = {"help", no_argument, NULL, 'h'},
    [VERSION] = {"version", no_argument, NULL, 256 + VERSION},
};

/* OPTIONS where there is none. */
static size_t which_option(int val)
{
    size_t i = 0;
    while (i < OPTIONS && known[i].val != val)
        i++;
    return i;
}

/* A word may have a key after its equals sign, and of the words around it nothing is shown. */
static int not_known(char **words, int found)
{
    size_t i = which_option(optopt);
    const char *word = words[optind - 1];
    if (found == ':' && i < OPTIONS)
        return complain(WRONG_WORDS, "--%s wants a value after it", known[i].name);
    if (i < OPTIONS)
        return complain(WRONG_WORDS, "--%s takes no value", known[i].name);
    if (optopt > ' ' && optopt <= '~')
        return complain(WRONG_WORDS, "-%c is no option; stretch --help says which there are", optopt);
    if (optopt != 0)
        return complain(WRONG_WORDS, "an option is the byte %02X; stretch --help says which there are", optopt & 0xFF);
    return complain(WRONG_WORDS, "%.*s is no option, or short for more than one; stretch --help says which there are",
                    (int)strcspn(word, "="), word);
}

/* The value of an option that is another option, as where a variable of the shell stands between them and is not set. */
static int is_option(char **words)
{
    return optarg != NULL && optarg == words[optind - 1] && optarg[0] == '-' && optarg[1] != 0;
}

static int read_options(int count, char **words, char **given)
{
    int found;
    opterr = 0;
    while ((found = getopt_long(count, words, ":c:r:k:n:f:l:o:h", known, NULL)) != -1) {
        size_t i = which_option(found);
        if (i == OPTIONS)
            return not_known(words, found);
        if (given[i] != NULL)
            return complain(WRONG_WORDS, "--%s was given twice, and is to be given once", known[i].name);
        given[i] = known[i].has_arg == no_argument ? words[0] : optarg;
        if (known[i].has_arg != no_argument && is_option(words))
            return complain(WRONG_WORDS, "--%s has an option where its value should be (is a variable of the shell not set?)",
                            known[i].name);
    }
    return DONE;
}

/* What has to be there. */

static int one_of(char **given, size_t first, size_t last, const char *what)
{
    int count = 0;
    for (size_t i = first; i <= last; i++)
        count += given[i] != NULL;
    if (count == 1)
        return DONE;
    return complain(WRONG_WORDS, "%d of %s were given, and it is to be one of them", count, what);
}

/* As the shell leaves a name where a variable is not set. */
static int no_name_empty(char **given, const char *file)
{
    const char *const names[] = {given[KEY_FILE], given[OUTPUT], file}, *const of[] = {"--key-file", "--output", "FILE"};
    for (size_t i = 0; i < sizeof names / sizeof *names; i++)
        if (names[i] != NULL && names[i][0] == 0)
            return complain(WRONG_WORDS, "%s is empty, and should name a file (is a variable of the shell not set?)", of[i]);
    return DONE;
}

static int all_there(char **given, int files, char **file)
{
    if (given[CIPHER] == NULL)
        return complain(WRONG_WORDS, "--cipher is missing: give 64 or 128, that which the file is sealed with");
    if (given[ROUNDS] == NULL)
        return complain(WRONG_WORDS, "--rounds is missing: give 12 to 255, as many to open as to seal");
    int status = one_of(given, KEY_FILE, EMPTY_KEY, "--key-file, --key and --empty-key");
    if (status == DONE)
        status = one_of(given, NUMBER, COUNTER, "--number and --counter");
    if (status == DONE && files != 1)
        status = complain(WRONG_WORDS, "%d files were named, and it is to be one; before a name that begins with - write --", files);
    return status == DONE ? no_name_empty(given, file[0]) : status;
}

/* Numbers and hex digits. */

/* A number of decimal digits that is at most `most`; `right` says in words which are right. */
static int read_number(const char *name, const char *word, uint64_t most, const char *right, uint64_t *value)
{
    *value = 0;
    for (const char *at = word; at == word || *at != 0; at++) {
        uint64_t digit = (uint64_t)(*at - '0');
        if (*at < '0' || *at > '9' || *value > (most - digit) / 10)
            return complain(WRONG_WORDS, "%s is '%s', and should be %s", name, word, right);
        *value = *value * 10 + digit;
    }
    return DONE;
}

static int read_small(const char *name, const char *word, const char *right, uint32_t *value)
{
    uint64_t wide;
    int status = read_number(name, word, UINT32_MAX, right, &wide);
    *value = (uint32_t)wide;
    return status;
}

static int hex_digit(char c)
{
    if (c >= '0' && c <= '9')
        return c - '0';
    if (c >= 'A' && c <= 'F')
        return c - 'A' + 10;
    if (c >= 'a' && c <= 'f')
        return c - 'a' + 10;
    return -1;
}

static int no_digit(const char *name, size_t place, char c)
{
    const char *right = "and should be a hex digit: 0 to 9, A to F, a to f";
    const char *word = c == '\n' ? "a line feed" : c == '\r' ? "a carriage return" : c == ' ' ? "a blank" : NULL;
    if (word != NULL)
        return complain(WRONG_WORDS, "digit %zu of %s is %s, %s", place, name, word, right);
    if (c > ' ' && c <= '~')
        return complain(WRONG_WORDS, "digit %zu of %s is '%c', %s", place, name, c, right);
    return complain(WRONG_WORDS, "digit %zu of %s is the byte %02X, %s", place, name, (unsigned)(uint8_t)c, right);
}

static int read_hex(const char *name, const char *text, size_t digits, uint8_t *bytes, size_t *count)
{
    for (size_t i = 0; i < digits; i++)
        if (hex_digit(text[i]) < 0)
            return no_digit(name, i + 1, text[i]);
    if (digits > 2 * MOST_BYTES)
        return complain(WRONG_WORDS, "%s has more than %d hex digits; a key has at most 64, and a counter block 32", name,
                        2 * MOST_BYTES);
    if (digits % 2 != 0)
        return complain(WRONG_WORDS, "%s has %zu hex digits, an odd number, and two make a byte", name, digits);
    for (size_t i = 0; i < digits / 2; i++)
        bytes[i] = (uint8_t)(hex_digit(text[2 * i]) * 16 + hex_digit(text[2 * i + 1]));
    *count = digits / 2;
    return DONE;
}

/* The key. */

static int key_digits(const char *name, const char *text, size_t digits, struct job *job)
{
    if (digits == 0)
        return complain(WRONG_WORDS,
                        "%s is empty (is a variable of the shell not set?); --empty-key takes the key of 0 bytes, to open with",
                        name);
    return read_hex(name, text, digits, job->key, &job->key_len);
}

static void warn_of_others(const char *name, int file)
{
    struct stat about;
    if (fstat(file, &about) == 0 && S_ISREG(about.st_mode) && (about.st_mode & (S_IRWXG | S_IRWXO)) != 0)
        complain(DONE, "warning: %s can be read or changed by others: its mode is %03o, and should be 600", name,
                 (unsigned)(about.st_mode & 0777));
}

/* As many bytes as there are, or as there is room for, or up to a line feed; -1 where reading fails. */
static ssize_t read_line(int file, char *text, size_t room)
{
    size_t had = 0;
    for (ssize_t more = 1; had < room && more != 0; had += more > 0 ? (size_t)more : 0) {
        more = read(file, text + had, room - had);
        if (more < 0 && errno != EINTR)
            return -1;
        if (more > 0 && text[had + (size_t)more - 1] == '\n')
            return (ssize_t)had + more;
    }
    return (ssize_t)had;
}

/* A text that is longer than the room fills it, and is longer than any key. */
static int key_of(const char *name, int file, struct job *job)
{
    char text[2 * MOST_BYTES + 4];
    warn_of_others(name, file);
    ssize_t length = read_line(file, text, sizeof text);
    int status;
    if (length < 0) {
        status = complain(TROUBLE, "%s cannot be read: %s", name, strerror(errno));
    } else {
        size_t digits = (size_t)length;
        if (digits > 0 && text[digits - 1] == '\n')
            digits--;
        if (digits > 0 && digits < (size_t)length && text[digits - 1] == '\r')
            digits--;
        status = key_digits(name, text, digits, job);
    }
    fox_wipe(text, sizeof text);
    return status;
}

static int key_from(const char *name, struct job *job)
{
    if (strcmp(name, "-") == 0)
        return key_of("the key on standard input", STDIN_FILENO, job);
    int file = open(name, O_RDONLY | O_NOCTTY | O_CLOEXEC);
    if (file < 0)
        return complain(TROUBLE, "the key file %s cannot be opened: %s", name, strerror(errno));
    int status = key_of(name, file, job);
    close(file);
    return status;
}

static int read_key(char **given, struct job *job)
{
    if (given[EMPTY_KEY] != NULL)
        return DONE;
    if (given[KEY_FILE] != NULL)
        return key_from(given[KEY_FILE], job);
    return key_digits("--key", given[KEY], strlen(given[KEY]), job);
}

/* The counter. */

static size_t block_of(uint32_t cipher)
{
    return cipher == FOX64 ? FOX64_BLOCK : FOX128_BLOCK;
}

static int made_counter(const char *word, struct job *job)
{
    uint32_t number;
    int status = read_small("--number", word, "0 to 4294967295", &number);
    job->counter_len = block_of(job->cipher);
    if (status != DONE || fox_counter(job->cipher, number, job->counter, job->counter_len) == FOX_SERVED)
        return status;
    return complain(TROUBLE, "--cipher is %" PRIu32 " (refusal 1): %s", job->cipher, fox_refusal_text(FOX_REFUSED_CIPHER));
}

static int read_counter(char **given, struct job *job)
{
    if (given[NUMBER] != NULL)
        return made_counter(given[NUMBER], job);
    return read_hex("--counter", given[COUNTER], strlen(given[COUNTER]), job->counter, &job->counter_len);
}

/* What is sealed with such values can be read by others, or cannot be opened as it is; to open, they may be right. What the
 * library refuses is not warned of. */
static void warn_of_sealing(const struct job *job)
{
    static const uint8_t zeros[4];
    if (job->rounds >= FOX_LEAST_ROUNDS && job->rounds < 16)
        complain(DONE, "warning: --rounds is %" PRIu32 ", and should be 16 or more", job->rounds);
    if (job->counter_len == block_of(job->cipher) &&
        memcmp(job->counter + job->counter_len - sizeof zeros, zeros, sizeof zeros) != 0)
        complain(DONE, "warning: the last four bytes of --counter should be zero, so that no two runs share a counter block");
    if (job->from > 0)
        complain(DONE, "warning: bytes sealed from byte %" PRIu64 " on open only there: put them at that byte of a sealed file",
                 job->from);
}

static int read_job(char **given, struct job *job)
{
    int status = read_small("--cipher", given[CIPHER], "64 or 128", &job->cipher);
    if (status == DONE)
        status = read_small("--rounds", given[ROUNDS], "12 to 255", &job->rounds);
    if (status == DONE && given[FROM] != NULL)
        status = read_number("--from", given[FROM], UINT64_MAX, "0 to 1073741824", &job->from);
    job->to_end = given[LENGTH] == NULL;
    if (status == DONE && !job->to_end)
        status = read_number("--length", given[LENGTH], UINT64_MAX, "0 to 1073741824", &job->length);
    if (status == DONE)
        status = read_key(given, job);
    if (status == DONE)
        status = read_counter(given, job);
    if (status == DONE && job->sealing)
        warn_of_sealing(job);
    job->card = given[CARD] != NULL;
    job->output = given[OUTPUT] == NULL || strcmp(given[OUTPUT], "-") == 0 ? NULL : given[OUTPUT];
    return status;
}

/* Before seal or open nothing may stand but the two that ask for a text. */
static int first_word(const char *word, struct job *job)
{
    job->sealing = strcmp(word, "seal") == 0;
    if (job->sealing || strcmp(word, "open") == 0)
        return DONE;
    if (strcmp(word, "-h") == 0 || strcmp(word, "--help") == 0)
        job->told = usage;
    else if (strcmp(word, "--version") == 0)
        job->told = version;
    else
        return complain(WRONG_WORDS, "the first word is '%.*s', and should be seal or open; stretch --help says the rest",
                        (int)strcspn(word, "="), word);
    return DONE;
}

int read_words(int count, char **words, struct job *job)
{
    char *given[OPTIONS] = {NULL};
    *job = (struct job){0};
    int status = first_word(count == 0 ? "" : words[0], job);
    if (status != DONE || job->told != NULL)
        return status;
    status = read_options(count, words, given);
    if (status == DONE && (given[HELP] != NULL || given[VERSION] != NULL))
        job->told = given[HELP] != NULL ? usage : version;
    if (status == DONE && job->told == NULL)
        status = all_there(given, count - optind, words + optind);
    if (status == DONE && job->told == NULL)
        status = read_job(given, job);
    if (given[KEY] != NULL)
        fox_wipe(given[KEY], strlen(given[KEY]));
    job->path = words[optind];
    return status;
}
