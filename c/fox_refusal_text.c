/* What each refusal number means and what would be right, for people. */
#include "fox.h"

static const char *const texts[] = {
    [FOX_SERVED] = "Served: the whole output was written, or the session was started or moved, or the tag that was tested is right, "
                   "or there was no scan left to read.",
    [FOX_REFUSED_CIPHER] = "The cipher is neither 64 nor 128: give 64 for FOX64 or 128 for FOX128, and use a session only after a start that was served.",
    [FOX_REFUSED_ROUNDS] = "The rounds are below 12 or above 255: give 12 to 255, and as many to open as to seal.",
    [FOX_REFUSED_KEY] = "The key is longer than 32 bytes: give 16 to 32 bytes to seal, and 0 to 32 to open, two hex digits to a byte.",
    [FOX_REFUSED_BLOCK] = "The block or counter block is of the wrong size: give 8 bytes for FOX64, 16 bytes for FOX128, "
                          "and for a scan the cipher and rounds that its file was taken up with.",
    [FOX_REFUSED_DATA] = "A call's data is above 65,536 bytes, and is to be cut into more calls, or its message above 1,073,741,824, the most.",
    [FOX_REFUSED_OUTPUT] = "The output is of the wrong size: give that of the input or of the scan, for a tag 8 (FOX64) or 16 (FOX128) bytes, for a file its size or more.",
    [FOX_REFUSED_END] = "The stretch ends beyond the longest run: offset, or the session's position, plus length is to be at most 1,073,741,824.",
    [FOX_REFUSED_SHEET] = "The bench sheet is malformed: mend the line that the answer names, 6 being text after the fifth.",
    [FOX_REFUSED_TAG_LENGTH] = "The stored tag is of the wrong size: give 8 bytes for FOX64, 16 bytes for FOX128.",
    [FOX_REFUSED_TAG] = "The stored tag differs: message or file, tag, key, cipher or rounds are not those of the tag that was made.",
    [FOX_REFUSED_HEADER] = "The file's header is broken, or is not of this cipher and these rounds: give those that the file was written with.",
    [FOX_REFUSED_FILE] = "The file is broken or cut short after its header, is over 65,535 scans, 65,536 bytes in a scan or 1,073,741,824 in all, "
                         "or the lengths of its scans do not add up to the data.",
    [FOX_REFUSED_SHORT_KEY] = "The key is shorter than 16 bytes, and nothing is sealed under it: seal with a key of 16 to 32 bytes, which are "
                              "32 to 64 hex digits; what was sealed under a shorter key is still opened with that key.",
};

const char *fox_refusal_text(uint32_t number)
{
    if (number < sizeof texts / sizeof *texts && texts[number] != NULL)
        return texts[number];
    return "This number means nothing: a call answers 0 to 7 or 9 to 13, and the bench program 8 as well.";
}
