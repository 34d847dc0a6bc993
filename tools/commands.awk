# Makes of tools/commands.txt the man page, where `of` is "man", or the completion for bash, where it is "completion".
BEGIN { FS = "[ \t]*[|][ \t]*" }

/^#/ || NF == 0 { next }

/^ / { sub(/^ +/, " "); text[count] = text[count] $0; next }

NF != 6 { print FILENAME ": line " NR " has not six fields" >"/dev/stderr"; failed = 1; exit 1 }

{
    count++
    kind[count] = $1
    name[count] = $2
    range[count] = ($3 == "" ? "" : ": " $3 " to " $4) ($5 == "" ? "" : ", " $5 " if left out")
    text[count] = $6
    if ($1 == "command") {
        owner = $2
        commands = commands (commands == "" ? "" : " ") $2
    }
    if ($1 == "option" || $1 == "word") synopsis[owner] = synopsis[owner] " " ($1 == "option" ? "[" $2 "]" : $2)
    if ($1 == "option") {
        split($2, words, " ")
        options[owner] = options[owner] (options[owner] == "" ? "" : " ") words[1]
        if (words[2] != "") valued = valued (valued == "" ? "" : " | ") words[1]
    }
}

# A text as troff reads it: a hyphen stands for itself.
function plain(text) {
    gsub(/\\/, "\\e", text)
    gsub(/-/, "\\-", text)
    gsub(/`/, "", text)
    return text
}

function section(title) { print ".SH " title }

function entry(place) {
    print ".TP"
    print ".B " plain(name[place])
    print_lines(plain(toupper(substr(text[place], 1, 1)) substr(text[place], 2) range[place] "."))
}

# A text in lines below 100 columns.
function print_lines(whole,    count, words, place, line) {
    count = split(whole, words, " ")
    line = words[1]
    for (place = 2; place <= count; place++)
        if (length(line) + length(words[place]) < 99) line = line " " words[place]
        else {
            print line
            line = words[place]
        }
    print line
}

function entries(title, wanted,    place) {
    section(title)
    for (place = 1; place <= count; place++) if (kind[place] == wanted) entry(place)
}

function print_man(    place) {
    print ".\\\" Made of tools/commands.txt by tools/commands.awk; change that, and make this anew:"
    print ".\\\" awk -v of=man -f tools/commands.awk tools/commands.txt > docs/foedus.1"
    print ".TH FOEDUS 1"
    section("NAME")
    print plain("foedus - runs transactions over arrays and trees of numbers, and keeps what was committed")
    section("SYNOPSIS")
    for (place = 1; place <= count; place++)
        if (kind[place] == "command")
            printf "%s.B foedus %s\n%s%s", (synopses++ ? ".br\n" : ""), plain(name[place]),
                synopsis[name[place]] == "" ? "" : plain(substr(synopsis[name[place]], 2)) "\n", ""
    section("DESCRIPTION")
    print "A script on standard input declares arrays and trees of numbers, and has a line for each transaction."
    print "A line for what came of each is printed, and what was committed is kept in the folder"
    print ".BR vault ."
    print "The language is taught in docs/SCRIPTS.md of the repository."
    section("COMMANDS")
    for (place = 1; place <= count; place++) {
        if (kind[place] == "command") entry(place)
        if (kind[place] == "option" || kind[place] == "word") { print ".RS"; entry(place); print ".RE" }
    }
    print ".PP"
    print "Options come in any order, each at most once."
    entries("EXIT STATUS", "status")
    print ".PP"
    print "With each status but 0 and 125 the last line of standard output names the cause."
    print "A file that has grown to the size that the system lets it have refuses writes, which ends with status 5,"
    print "or 4 for standard output. The bare program, called without the launcher, is ended by the signal"
    print "SIGXFSZ there."
    entries("ENVIRONMENT", "variable")
    section("EXAMPLE")
    print ".nf"
    print "printf 'array 1 2\\en0 w 1 0 7; r 1 0\\en' | foedus run"
    print "foedus dump"
    print ".fi"
}

function print_completion(    place) {
    print "# Completion of foedus for bash, made of tools/commands.txt by tools/commands.awk."
    print "_foedus() {"
    print "    COMPREPLY=()"
    print "    local word=${COMP_WORDS[COMP_CWORD]} words="
    print "    if [ \"$COMP_CWORD\" = 1 ]; then"
    print "        words='" commands "'"
    print "    else"
    print "        case ${COMP_WORDS[COMP_CWORD - 1]} in"
    if (valued != "") print "        " valued ") return ;;"
    print "        esac"
    print "        case ${COMP_WORDS[1]} in"
    for (place = 1; place <= count; place++)
        if (kind[place] == "command" && options[name[place]] != "")
            print "        " name[place] ") words='" options[name[place]] "' ;;"
    print "        esac"
    print "    fi"
    print "    mapfile -t COMPREPLY < <(compgen -W \"$words\" -- \"$word\")"
    print "}"
    print "complete -F _foedus foedus"
}

END {
    if (failed) exit 1
    if (of == "man") print_man()
    else print_completion()
}
