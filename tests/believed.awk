# Prints docs/BELIEVED.md from the files of crates/*/specs and the C calls, as tests/believed gives them. It begins with
# the names in the contracts of the C calls and follows each definition to the names in its text. A file is named
# crate.Module here. A file that is reached and is in no group is an error, and so is one that uses a later one.
BEGIN {
    group("Refusals and outcomes", "refusal.Refusals refusal.Numbers refusal.Outcome")
    group("Fields", "fields.LittleEndian fields.Fields")
    group("Checksum, structures",
        "checksum.Lookup3 checksum.Trailing structures.Structures structures.PageBits structures.Header")
    group("Grid", "chunk_grid.Grid shapes.Shapes")
    group("What an index is, and a complete and exact list", "index.Index index.ExactList")
    group("Elements, records, where elements lie",
        "element_form.Form elements.Elements elements.Runs records.Records located.Located")
    group("Calls from C", "calls.Call calls.Answer")
    group("Header", "ea_header.Log ea_header.Header ea_header.Served")
    group("Sizes, positions, the place of a slot", "ea_geometry.Sizes ea_geometry.Extents ea_geometry.Place")
    group("The array's structures and places", "ea_blocks.Array ea_blocks.Structures ea_blocks.Places")
    group("The walk and the list", "ea_walk.Walk ea_calls.Call")
    group("The lookup", "ea_lookup.Lookup ea_lookup.Call")
    group("The Fixed Array: header, sizes, positions", "fa_header.Header fa_header.Served fa_geometry.Layout")
    group("Its structures and places", "fa_blocks.FixedArray fa_blocks.Blocks")
    group("Its list and lookup", "fa_walk.Walk fa_calls.Call")
    other("Of the program `eals`", "questions list_text eals")
    other("Of the listing of spans", "span_walk ea_spans span_records")
    other("Worked examples", "ea_worked fa_worked")
    other("What the code's own values stand for, and what theorems speak of", "")
}

FNR == 1 {
    end_definition()
    split(FILENAME, part, "/")
    file = part[2] "." part[4]
    if (sub(/\.antt$/, "", file)) files[++file_count] = file
    else sources[++source_count] = file
}
/^(ghost )?use Rattle\./ && !/use Rattle\.std\./ { import($0) }
/^(ghost )?use / { next }
FILENAME ~ /\.rt$/ {
    if (!inside && /^ *(requires|ensures) [^{]*\{/) inside = ++clauses
    if (inside) {
        contracts[file] = contracts[file] "\n" $0
        depth += gsub(/\{/, "{") - gsub(/\}/, "}")
        if (depth == 0) inside = 0
    }
    next
}
/^ *$/ { end_definition() }
/^ *(--|$)/ { next }
{
    text = text "\n" $0
    lines++
    if (name != "" || /^( |infix)/) next
    sub(/^(unfoldable |abbrev )?(pub )?(record |data )?/, "")
    if (/^[^ :(]+ .*:/) name = $1
}

END {
    if (failed) exit 1
    if (clauses == 0 || inside) fail("no contract, or one without an end, in " FILENAME)
    for (i = 1; i <= source_count; i++) follow(sources[i], contracts[sources[i]], "")
    while (waiting > 0) {
        split(todo[waiting--], part, SUBSEP)
        follow(part[1], text_of[part[1], part[2]], part[2])
    }
    count_all()
    print_all()
}

function fail(message) {
    print "tests/believed: " message > "/dev/stderr"
    failed = 1
    exit 1
}

# A group of files that are believed, in reading order.
function group(heading, names,    name, n, i) {
    headings[++group_count] = heading
    members[group_count] = names
    n = split(names, name, " ")
    for (i = 1; i <= n; i++) place[name[i]] = ++places
}

# A kind of files that aren't, by their crates; the last kind has all that are left.
function other(heading, names,    name, n, i) {
    kinds[++kind_count] = heading
    n = split(names, name, " ")
    for (i = 1; i <= n; i++) kind_of[name[i]] = kind_count
}

# Keeps the names that an import brings into the file: where each is from, and its name there.
function import(line,    part, name, n, i, pair) {
    sub(/^(ghost )?use Rattle\./, "", line)
    split(line, part, /\.\{|\}/)
    sub(/\.specs\./, ".", part[1])
    n = split(part[2], name, ", ")
    for (i = 1; i <= n; i++) {
        if (split(name[i], pair, " as ") < 2) pair[2] = pair[1]
        brought[file] = brought[file] " " pair[2]
        from[file, pair[2]] = part[1]
        there[file, pair[2]] = pair[1]
    }
}

# Keeps the definition whose lines have been read.
function end_definition() {
    if (text != "" && name == "") fail(file ": lines that define nothing:" text)
    if (text != "") {
        defined[file] = defined[file] " " name
        text_of[file, name] = text
        lines_of[file, name] = lines
    }
    text = name = ""
    lines = 0
}

function words_of(text, words,    word, n, i) {
    split("", words)
    n = split(text, word, /[ \t\n(){},;.@"]+/)
    for (i = 1; i <= n; i++) words[word[i]] = 1
}

# Whether a name is among the words; an operator is where all its parts are.
function is_among(name, words,    part, n, i) {
    if (name in words) return 1
    n = split(name, part, "◌")
    for (i = 1; i <= n; i++) if (part[i] != "" && !(part[i] in words)) return 0
    return name ~ /^◌/
}

# Reaches what a text of a file names: the file's definitions but `own`, and what is imported.
function follow(file, text, own,    words, name, n, i) {
    words_of(text, words)
    n = split(defined[file], name, " ")
    for (i = 1; i <= n; i++) if (name[i] != own && is_among(name[i], words)) reach(file, file, name[i])
    n = split(brought[file], name, " ")
    for (i = 1; i <= n; i++) if (is_among(name[i], words)) reach(file, from[file, name[i]], there[file, name[i]])
}

# Reaches a name that a file uses: a type of the code, a definition, or what a definition declares.
function reach(user, file, name,    words, own, n, i) {
    if (sub(/\.declared\./, "::", file)) {
        sub(/\.TheVariants$/, "", file)
        sub(/::.*\./, "::", file)
        types[file] = 1
        return
    }
    if (!(file in place)) fail(file ", which " user " uses, is in no group")
    if (user in place && place[user] < place[file]) fail(user " uses " file ", which comes later")
    if (!((file, name) in text_of)) {
        n = split(defined[file], own, " ")
        for (i = 1; i <= n; i++) {
            words_of(text_of[file, own[i]], words)
            if (name in words) break
        }
        if (i > n) fail(file " has no " name ", which " user " uses")
        name = own[i]
    }
    if (!((file, name) in reached)) todo[++waiting] = file SUBSEP name
    reached[file, name] = 1
}

# Counts the reached lines of each file, of each group and of all.
function count_all(    file, name, g, m, n, i, k) {
    for (g = 1; g <= group_count; g++) {
        m = split(members[g], file, " ")
        believed += m
        for (i = 1; i <= m; i++) {
            n = split(defined[file[i]], name, " ")
            for (k = 1; k <= n; k++) if ((file[i], name[k]) in reached) {
                definitions++
                lines_in[file[i]] += lines_of[file[i], name[k]]
            }
            if (!(file[i] in lines_in)) fail(file[i] " is in a group, and no C call uses it")
            lines_in_group[g] += lines_in[file[i]]
        }
        all += lines_in_group[g]
    }
}

# The names of a file's definitions that are reached (1), or aren't (0).
function names_of(file, wanted,    name, n, i, list) {
    n = split(defined[file], name, " ")
    for (i = 1; i <= n; i++) if (((file, name[i]) in reached) == wanted) list = listed(list, name[i])
    return list
}

# A list of quoted names with one more.
function listed(list, name) {
    return list (list == "" ? "`" : ", `") name "`"
}

# The names that the contracts have.
function contract_names(    words, name, n, i, k, list) {
    for (k = 1; k <= source_count; k++) {
        words_of(contracts[sources[k]], words)
        n = split(brought[sources[k]], name, " ")
        for (i = 1; i <= n; i++) if (is_among(name[i], words)) list = listed(list, name[i])
    }
    return list
}

# Prints words, up to 118 bytes a line; lines behind the first begin with `indent`. A `~` is a space where no line ends.
function print_wrapped(words, indent,    word, n, i, line) {
    n = split(words, word, " ")
    for (i = 1; i <= n; i++) gsub(/~/, " ", word[i])
    line = word[1]
    for (i = 2; i <= n; i++)
        if (length(line " " word[i]) <= 118) line = line " " word[i]
        else {
            print line
            line = indent word[i]
        }
    print line
}

function print_all(    file, g, n, i, k, list) {
    print "# What must be believed\n"
    print_wrapped("The definitions that the contracts of the C calls rest on: " all " lines, " definitions \
        " definitions in " believed " files. `tests/believed~--write` writes this from the definitions, and" \
        " `make~test` compares it with them.")
    print ""
    print_wrapped("Counted are lines that are neither comments nor blank nor imports. A definition `crate.file.name`" \
        " stands in `crates/crate/specs/file.antt`; above it, or above a few that belong together, stands the" \
        " sentence that it states. Files are in reading order: none uses a later one. Each definition was reached from" \
        " the names in the contracts of `crates/cellumaq` by the names in the definitions' texts; names of the kit's" \
        " own libraries (numbers, lists, equality) aren't followed. The contracts name " contract_names() ".")
    for (g = 1; g <= group_count; g++) {
        print "\n## " g ". " headings[g] ": " lines_in_group[g] " lines\n"
        n = split(members[g], file, " ")
        for (i = 1; i <= n; i++) {
            list = names_of(file[i], 0)
            print_wrapped("- `" file[i] "`, " lines_in[file[i]] " lines: " names_of(file[i], 1) \
                (list == "" ? "" : "; no C call asks " list), "  ")
        }
    }
    print "\n## The code's own types that these definitions mention\n"
    print_wrapped(sorted_types())
    print "\n## Definitions that no C call rests on\n"
    for (k = 1; k <= kind_count; k++) {
        list = ""
        for (i = 1; i <= file_count; i++) {
            split(files[i], part, ".")
            g = part[1] in kind_of ? kind_of[part[1]] : kind_count
            if (!(files[i] in place) && g == k) list = listed(list, files[i])
        }
        print_wrapped("- " kinds[k] ": " list, "  ")
    }
}

# The types in the order of their names.
function sorted_types(    type, n, sorted, i, k, list) {
    for (type in types) {
        for (i = ++n; i > 1 && sorted[i - 1] > type; i--) sorted[i] = sorted[i - 1]
        sorted[i] = type
    }
    for (k = 1; k <= n; k++) list = listed(list, sorted[k])
    return list
}
