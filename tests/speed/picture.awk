# Draws the C variants by the compiler that makes the library as bars, and the server as a line: reads what the speed
# program says, and writes an SVG picture. `processor` is the name of the processor that it ran on. Where a figure is
# missing nothing is written, and the exit status is 1.
BEGIN {
    FS = "  +"
    split("FOX64 FOX128", ciphers, " ")
    kinds["FOX64"] = 2; kinds["FOX128"] = 3
    # Dark, middle and light, so that they are told apart in grey too; and what numbers on them are written in.
    split("#1f4e79 #e08a3c #cfe3c2", colours, " "); split("#ffffff #000000 #000000", inks, " ")
    split("shifted S-box, 32-bit words (TBS)|single bytes from the S-box|shifted S-box, 64-bit words", names, "|")
    line = "#b00020"
    width = 1000; height = 500; top = 104; bottom = 410; bar = 27; gap = 12; left["FOX64"] = 52; left["FOX128"] = 482
}

/^speed: FOX[0-9]+ by the server, from key bytes: / {
    split($0, words, " ")
    server[words[2]] = words[9]
}

/^speed: C by tables, MB\/s, the most of / { split($0, words, " "); tries = words[9] }

$2 == "kit" && $1 ~ /^FOX/ && NF == 10 {
    kind = $4 ~ /bytes/ ? 2 : $4 ~ /64/ ? 3 : 1
    compiler = $3
    for (i = 1; i <= 5; i++) rate[$1, kind, i] = $(4 + i)
}

function whole() { # whether every figure is there
    for (c = 1; c <= 2; c++) {
        if (server[ciphers[c]] <= 0) return 0
        for (k = 1; k <= kinds[ciphers[c]]; k++)
            for (i = 1; i <= 5; i++)
                if (rate[ciphers[c], k, i] <= 0) return 0
    }
    return compiler != ""
}

function scale() { # the axis: a little higher than every figure, and a round step from number to number
    most = 0
    for (r in rate) if (rate[r] + 0 > most) most = rate[r] + 0
    for (c in server) if (server[c] + 0 > most) most = server[c] + 0
    step = 1
    while (most > 6 * step) step *= substr(step, 1, 1) == 2 ? 2.5 : 2
    end = 1.04 * most
}

function y(value) { return bottom - (bottom - top) * value / end }

function escaped(text) {
    gsub(/&/, "\\&amp;", text); gsub(/</, "\\&lt;", text); gsub(/>/, "\\&gt;", text)
    return text
}

function text(x, at, size, anchor, ink, words) {
    printf "<text x=\"%.1f\" y=\"%.1f\" font-size=\"%d\" text-anchor=\"%s\" fill=\"%s\">%s</text>\n",
        x, at, size, anchor, ink, escaped(words)
}

function box(x, at, w, h, fill) {
    printf "<rect x=\"%.1f\" y=\"%.1f\" width=\"%.1f\" height=\"%.1f\" fill=\"%s\" stroke=\"#333333\" " \
        "stroke-width=\"0.6\"/>\n", x, at, w, h, fill
}

function level(x, to, at, ink, thick) {
    printf "<line x1=\"%.1f\" y1=\"%.1f\" x2=\"%.1f\" y2=\"%.1f\" stroke=\"%s\" stroke-width=\"%.1f\"/>\n",
        x, at, to, at, ink, thick
}

function grid(from, to) {
    for (v = 0; v <= end; v += step) {
        level(from, to, y(v), v == 0 ? "#333333" : "#d0d0d0", 1)
        text(from - 6, y(v) + 4, 12, "end", "#333333", v)
    }
    text(from - 6, top - 12, 12, "end", "#333333", "MB/s")
}

function bars(from, cipher, i) { # those for i blocks
    for (k = 1; k <= kinds[cipher]; k++) {
        x = from + gap / 2 + (k - 1) * bar
        r = rate[cipher, k, i]
        box(x, y(r), bar, bottom - y(r), colours[k])
        text(x + bar / 2, bottom - 7, 11, "middle", inks[k], sprintf("%.0f", r))
    }
    text(from + gap / 2 + kinds[cipher] * bar / 2, bottom + 18, 13, "middle", "#000000", i)
}

function panel(cipher) {
    group = kinds[cipher] * bar + gap
    from = left[cipher]; to = from + 5 * group; middle = (from + to) / 2; at = y(server[cipher])
    grid(from, to)
    for (i = 1; i <= 5; i++) bars(from + (i - 1) * group, cipher, i)
    level(from, to, at, "#ffffff", 4)
    level(from, to, at, line, 1.8)
    text(to + 5, at - 2, 12, "start", line, "server")
    text(to + 5, at + 12, 12, "start", line, sprintf("%.0f", server[cipher]))
    text(middle, top - 12, 15, "middle", "#000000", cipher)
    text(middle, bottom + 36, 12, "middle", "#333333", "blocks side by side")
}

function legend(x, at) {
    for (k = 1; k <= 3; k++) {
        box(x, at - 11, 14, 14, colours[k])
        text(x + 20, at + 1, 13, "start", "#000000", names[k])
        x += 44 + 7 * length(names[k])
    }
    level(x, x + 22, at - 4, line, 1.8)
    text(x + 28, at + 1, 13, "start", "#000000", "the server")
}

END {
    if (!whole()) exit 1
    scale()
    title = "FOX in counter mode: C by tables, 1 to 5 blocks side by side, and the library's server"
    printf "<svg xmlns=\"http://www.w3.org/2000/svg\" width=\"%d\" height=\"%d\" viewBox=\"0 0 %d %d\" role=\"img\" " \
        "font-family=\"sans-serif\">\n<title>%s</title>\n", width, height, width, height, escaped(title)
    printf "<rect width=\"%d\" height=\"%d\" fill=\"#ffffff\"/>\n", width, height
    text(width / 2, 28, 18, "middle", "#000000", title)
    legend(left["FOX64"], 60)
    panel("FOX64")
    panel("FOX128")
    text(left["FOX64"], height - 30, 12, "start", "#333333", "C by " compiler " -O3, the compiler that makes the " \
        "library, with round keys and tables ready; the server from key bytes.")
    text(left["FOX64"], height - 12, 12, "start", "#333333", processor "; 65,536 bytes, 16 rounds, key of 16 bytes; " \
        "each figure is the most of " tries " tries.")
    print "</svg>"
}
