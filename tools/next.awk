# Prints which library is to be proved next and with how many jobs, or nothing where none can be begun. It reads a plan:
# lines of a name, the work that is left from its library on up to the program, and those that the library stands on.
# `ended` and `begun` are lists of names, `cores` the number of processors.
#
# Of the libraries that can be begun it is the one with the most work above it. Where no other one that isn't proved has
# more, all wait for it, and it gets as many jobs as there are processors; else one, since each further job costs work.
BEGIN {
    count = split(ended, names, " ")
    for (place = 1; place <= count; place++) is_ended[names[place]] = 1
    count = split(begun, names, " ")
    for (place = 1; place <= count; place++) is_begun[names[place]] = 1
}

!($1 in is_ended) {
    if ($2 > most) most = $2
    can_begin = !($1 in is_begun)
    for (place = 3; place <= NF; place++) if (!($place in is_ended)) can_begin = 0
    if (can_begin && (name == "" || $2 > left)) {
        name = $1
        left = $2
    }
}

END { if (name != "") print name, (left >= most ? cores : 1) }
