# Adds to each line of tools/needed.awk, behind its name, the work that is left from this crate on up to the program. It
# reads those lines where `of` is "crates", and before them, where it is "sizes", those of files, as wc -c tells them of
# crates/NAME/PART/... What a crate's proof takes grows with the bytes of its code, and with a fourth of those of its
# definitions, and is some seconds at least.
BEGIN { least = 12000 }

of == "sizes" {
    if (split($2, path, "/") > 3) work[path[2]] += path[3] == "specs" ? $1 / 4 : $1
    next
}

{ crates[++count] = $0 }

# Each crate stands behind those that it stands on, so from the last one on all above a crate are known.
END {
    for (place = count; place >= 1; place--) {
        size = split(crates[place], names, " ")
        left[place] = above[names[1]] + work[names[1]] + least
        for (other = 2; other <= size; other++)
            if (left[place] > above[names[other]]) above[names[other]] = left[place]
    }
    for (place = 1; place <= count; place++) {
        split(crates[place], names, " ")
        printf "%s %d%s\n", names[1], left[place], substr(crates[place], length(names[1]) + 1)
    }
}
