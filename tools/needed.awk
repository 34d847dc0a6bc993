# Prints, of crates.txt, the crates of this repository that `program` stands on, and last the program itself: a line for
# each, with its name and those that it names of these, each after all that it stands on.
{
    sub(/#.*/, "")
    colon = index($0, ":")
    if (colon == 0) next
    split(substr($0, 1, colon - 1), words, " ")
    uses[words[1]] = substr($0, colon + 1)
}

function visit(name,    count, names, place, own) {
    seen[name] = 1
    count = split(uses[name], names, " ")
    for (place = 1; place <= count; place++)
        if (names[place] in uses) {
            own = own " " names[place]
            if (!(names[place] in seen)) visit(names[place])
        }
    print name own
}

END { if (program in uses) visit(program) }
