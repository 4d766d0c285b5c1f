# Reads what a check of a crate printed, and says how each function stands that is not proved.
#
#   refused FUNCTION: GOAL ..   goals of its own are not proved
#   unread FUNCTION: LINE       an answer names what is there no more, or cannot be read
#   waiting FUNCTION            only functions that it calls are not proved
#   unclear FUNCTION: LINE      it is not proved otherwise
#   beside: LINE                a type, an impl, a lemma or a definition is refused
#   read                        the check came to its end
# Run in the folder of the crate, whose name is the variable crate.

# The function whose proof has this file.
function owner(path) {
    if (path !~ /^proofs\/.*\/(Answers|Invariants|Proof)\.antt$/)
        return ""
    sub(/^proofs\//, "", path)
    sub(/\/[^\/]*$/, "", path)
    gsub(/\//, "::", path)
    return path
}

# Whether the file answers a goal of this name.
function answers(path, goal,    line, found) {
    while ((getline line < path) > 0)
        found = found || index(line, "pub " goal " :") == 1
    close(path)
    return found
}

# Whether an error says that a name is gone or a text cannot be read, and not that a goal is open.
function is_of_text(line) {
    return line ~ /has no field|has no `|is not in scope|is no name|was not admitted/ ||
        line ~ /is missing at the end|expected the end|cannot continue/
}

function add_goal(name, goal) {
    if (!((name, goal) in told))
        goals[name] = goals[name] " " goal
    told[name, goal]
}

# A long error goes on in the next line.
begun != "" {
    if (/^  / && is_of_text($0))
        unread[begun] = unread[begun] "\nunread " begun ": " first $0
    begun = ""
}

# What cites an answer that is refused is not looked at.
/: error: [0-9]+ declarations? that depends? on / {
    next
}

/^(\.\/)?(src|specs|proofs)\/[^ ]*:[0-9]+:[0-9]+: error/ {
    path = $0
    sub(/^\.\//, "", path)
    sub(/:.*/, "", path)
    name = owner(path)
    goal = $0
    if (!sub(/^[^ ]* error: `/, "", goal))
        goal = ""
    sub(/`.*/, "", goal)
    if (name == "")
        print "beside: " $0
    else if (goal == "" || !answers(path, goal) || is_of_text($0))
        unread[name] = unread[name] "\nunread " name ": " $0
    else {
        add_goal(name, goal)
        begun = name
        first = $0
    }
    next
}

/^fn [^ ]*: / {
    name = $2
    sub(/:$/, "", name)
    name = substr(name, length(crate) + 3)
    said = $0
    sub(/^fn [^ ]*: /, "", said)
    if (said ~ /^proved/)
        next
    if (match(said, /`search` did not prove (`[^`]*`(, )?)+/)) {
        count = split(substr(said, RSTART, RLENGTH), parts, "`")
        for (part = 4; part < count; part += 2)
            add_goal(name, parts[part])
    }
    if (name in unread)
        print substr(unread[name], 2)
    else if (name in goals)
        print "refused " name ":" goals[name]
    else if (said ~ /^(no proof: it calls|not proved; it waits for) /)
        print "waiting " name
    else
        print "unclear " name ": " $0
    next
}

/^(struct|enum|union|trait|impl) [^ ]*: / && !/: proved/ && !/; it waits for the proof of / {
    print "beside: " $0
}

/^(logic|only)=/ { print "read" }
