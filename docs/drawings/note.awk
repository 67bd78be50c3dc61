# How a note flows through a reading, as SVG, from note.flow; every crate that it names must stand in crates.txt.
/^#/ || NF == 0 { next }
FNR == NR { sub(/:.*/, ""); known[$1] = 1; next }
{
    fields = split($0, part, /[ ]*\|[ ]*/)
    steps++
    crates[steps] = part[1]; text[steps] = part[2]; only[steps] = part[3]; refused[steps] = part[4]
    for (f = 4; f <= fields; f++) if (part[f] ~ /^back /) { back[steps] = substr(part[f], 6) + 0 }
    if (refused[steps] ~ /^back /) refused[steps] = ""
    wrongs = split(part[1], named, " ")
    for (w = 1; w <= wrongs; w++) if (!(named[w] in known)) { print "note.flow names " named[w] ", which crates.txt does not have" > "/dev/stderr"; exit 1 }
}

END {
    left = 60; wide = 620; high = 44; down = 30; out = 130
    width = left + wide + out + 20; height = steps * (high + down) + down
    printf "<svg xmlns=\"http://www.w3.org/2000/svg\" width=\"%d\" height=\"%d\" font-family=\"sans-serif\" font-size=\"12\">\n", width, height
    print "<title>How a note flows through a reading</title>"
    print "<defs><marker id=\"tip\" viewBox=\"0 0 8 8\" refX=\"8\" refY=\"4\" markerWidth=\"8\" markerHeight=\"8\" orient=\"auto\"><path d=\"M0 0L8 4L0 8z\"/></marker></defs>"
    printf "<rect width=\"%d\" height=\"%d\" fill=\"white\"/>\n", width, height
    for (k = 1; k <= steps; k++) {
        y = down / 2 + (k - 1) * (high + down); mid = y + high / 2
        printf "<rect x=\"%d\" y=\"%d\" width=\"%d\" height=\"%d\" rx=\"4\" fill=\"%s\" stroke=\"black\"/>\n", left, y, wide, high, only[k] == "" ? "#eef3f8" : "#f8f3e6"
        said = only[k] == "" ? "" : " (" only[k] " alone)"
        printf "<text x=\"%d\" y=\"%d\">%d. %s%s</text>\n", left + 10, y + 18, k, text[k], said
        printf "<text x=\"%d\" y=\"%d\" fill=\"#444\" font-style=\"italic\">%s</text>\n", left + 24, y + 35, crates[k]
        if (k < steps) printf "<line x1=\"%d\" y1=\"%d\" x2=\"%d\" y2=\"%d\" stroke=\"black\" marker-end=\"url(#tip)\"/>\n", left + wide / 2, y + high, left + wide / 2, y + high + down
        if (refused[k] != "") {
            printf "<line x1=\"%d\" y1=\"%d\" x2=\"%d\" y2=\"%d\" stroke=\"black\" marker-end=\"url(#tip)\"/>\n", left + wide, mid, left + wide + 40, mid
            printf "<text x=\"%d\" y=\"%d\">refused: %s</text>\n", left + wide + 46, mid + 4, refused[k]
        }
        if (back[k]) {
            to = down / 2 + (back[k] - 1) * (high + down) + high / 2
            printf "<path d=\"M%d %dH%dV%dH%d\" fill=\"none\" stroke=\"black\" marker-end=\"url(#tip)\"/>\n", left, mid, left - 30, to, left
        }
    }
    print "</svg>"
}
