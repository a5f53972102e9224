# Finds what a contract rests on: see gate/believe, which runs this with the root of the project as the folder.
# Variables: `sources`, the Rattle files, separated by spaces; `asked`, names of exported functions, or none for all;
# `page`, 1 for what stands in docs/TRUST.md. Bytes, not characters: run it with LC_ALL=C.
#
# A definition is followed to every name in its type and its clauses, those of the modules around it too. A name is a
# variable where a pattern, a λ or a (x : ..) binds it, or an `open` right below a module, and else it must be found: in
# its file, in its imports, or in the words of the language. Whatever is not understood is an error, so nothing is left out in silence.
# A definition is known as FILE SUBSEP NAME, a file of specs as CRATE/FILE, a type declared in Rattle as CRATE:TYPE.

function fail(words) {
    if (!(words in failed)) print "believe: " words > "/dev/stderr"
    failed[words] = bad = 1
}

# ---- reading a file of specs
function cut_words(text, out) {
    gsub(/[(){};,]/, " & ", text)
    return split(text, out, " ")
}
# where a name says its places in a sentence by ◌, each word of it stands for the name
function add_parts(m, name,    w, n, k) {
    if (name !~ /◌/) return
    n = split(name, w, "◌")
    for (k = 1; k <= n; k++) if (w[k] != "") part[m, w[k]] = part[m, w[k]] " " name
}
# what the name of an import means: K kit, T type of Rattle, V a variant of one, S a name of a file of specs, X unknown
function target(path, name,    crate, rest) {
    if (path ~ /^(mathlib|lib|Prim|borrow|native|denote|Rattle\.std)\./) return "K " path " " name
    if (!sub(/^Rattle\./, "", path)) return "X " path " " name
    if (!match(path, /^[a-z0-9_]+\.specs\./)) return "X " path " " name
    crate = substr(path, 1, index(path, ".") - 1)
    rest = substr(path, RSTART + RLENGTH)
    if (sub(/^declared\./, "", rest)) {
        if (sub(/\.TheVariants$/, "", rest)) return "V " crate ":" rest " " name
        return rest == name ? "T " crate ":" rest : "X " path " " name
    }
    return rest ~ /[.]/ ? "X " path " " name : "S " crate "/" rest " " name
}
function import(m, text, public,    open, path, w, n, k, name, as) {
    sub(/;? *$/, "", text)
    open = index(text, ".{")
    if (!open) {
        n = split(text, w, " ")
        if (n == 3 && w[2] == "as") alias[m, w[3]] = w[1]
        else fail("an import that is not understood in " m ": " text)
        return
    }
    path = substr(text, 1, open - 1)
    text = substr(text, open + 2)
    if (!sub(/}$/, "", text)) fail("an import that is not understood in " m ": " text)
    n = split(text, w, ",")
    for (k = 1; k <= n; k++) {
        name = w[k]
        gsub(/^ +| +$/, "", name)
        if (name == "") continue
        as = name
        if (name ~ / as /) { sub(/.* as /, "", as); sub(/ as .*/, "", name) }
        if (name ~ / /) fail("an import that is not understood in " m ": " name)
        imported[m, as] = imported[m, as] "\n" target(path, name)
        if (public) exported[m, as] = exported[m, as] "\n" target(path, name)
        add_parts(m, as)
    }
}
function add_chunk(id, kind, text) {
    chunk[id, ++chunks[id]] = text
    chunk_kind[id, chunks[id]] = kind
}
function add_name(m, id, name) {
    if ((m, name) in meant) fail("two definitions of " name " in " m)
    meant[m, name] = id
    add_parts(m, name)
}
function define(m, name, kind,    id) {
    id = m SUBSEP name
    add_name(m, id, name)
    kind_of[id] = kind
    file_of[id] = m
    name_of[id] = name
    around[id] = inside
    lines_of[id] = 1
    order[m, ++count[m]] = id
    return id
}
# a line with a field or a constructor
function add_member(m, id, text,    w) {
    sub(/^ *pub /, "", text)
    cut_words(text, w)
    if (w[2] != ":") fail("a line that is not understood in " m ": " text)
    if (kind_of[id] == "record") { add_chunk(id, "field", text); fields_of[id] = fields_of[id] " " w[1] }
    else { add_chunk(id, "constructor", text); add_name(m, id, w[1]); constructor[m, w[1]] = 1 }
}
function load(m,    path, line, got, now, deep, body, headed, w, n, k, name, open, depth, mods, mod, bare, fixed) {
    if (m in loaded) return
    loaded[m] = 1
    path = m
    sub(/\//, "/specs/", path)
    path = "crates/" path ".antt"
    path_of[m] = path
    now = open = inside = ""
    while ((got = (getline line < path)) > 0) {
        if (line ~ /^ *--/ || line ~ /^ *$/) continue
        sub(/ --( .*)?$/, "", line)
        if (line ~ /[{]-|-[}]|\t|"/) fail("a line that is not understood in " path ": " line)
        match(line, /^ */)
        deep = RLENGTH
        if (open != "") {
            line = open " " line
            open = ""
            deep = 0
        } else if (now != "" && (deep > depth || line ~ /^ *[)}]/)) {
            lines_of[now]++
            if (kind_of[now] == "name") chunk[now, chunks[now]] = chunk[now, chunks[now]] " " line
            else if (!headed) { chunk[now, 1] = chunk[now, 1] " " line; headed = line ~ / where$/ }
            else {
                if (!body) body = deep
                if (deep == body) add_member(m, now, line)
                else chunk[now, chunks[now]] = chunk[now, chunks[now]] " " line
            }
            continue
        }
        while (mods > 0 && deep <= mod_deep[mods]) { mods--; sub(/ [^ ]*$/, "", inside) }
        if (line ~ /^(pub )?use /) {
            now = ""
            if (line ~ /[{][^}]*$/) { open = line; continue }
            k = sub(/^pub /, "", line)
            sub(/^use /, "", line)
            import(m, line, k)
            continue
        }
        n = cut_words(line, w)
        if (line ~ /^pub mod /) { now = ""; continue }
        if (w[1] ~ /^infix[lr]?$/ && n == 3) { now = ""; fixed[w[3]]++; continue }
        if (w[1] == "module") {
            if (w[2] != "_" || w[n] != "where") { fail("a module that is not understood in " path ": " line); continue }
            now = ""
            mod = m ":" ++modules[m]
            mod_deep[++mods] = deep
            inside = inside " " mod
            sub(/^ *module _/, "", line)
            telescope[mod] = line
            mod_file[mod] = m
            bare = 1
            continue
        }
        if (w[1] == "open") {
            if (!bare) fail("an open that is not right below its module in " path ": " line)
            opened[mod, ++opens[mod]] = line
            continue
        }
        bare = 0
        k = 1
        while (w[k] ~ /^(pub|abbrev|unfoldable|opaque)$/) k++
        if (w[k] ~ /^(record|data)$/) {
            now = define(m, w[k + 1], w[k])
            depth = deep
            body = 0
            headed = line ~ / where$/
            sub(/^ *(pub )?(record|data) +[^ ]+/, "", line)
            add_chunk(now, "head", line)
        } else if (w[k + 1] == ":") {
            now = define(m, w[k], "name")
            depth = deep
            sub(/^[^:]*:/, "", line)
            add_chunk(now, "type", line)
        } else if (k == 1 && now != "" && deep == depth && kind_of[now] == "name") {
            lines_of[now]++
            add_chunk(now, "clause", line)
        } else fail("a line that is not understood in " path ": " line)
    }
    if (got < 0) fail("there is no " path)
    close(path)
    for (name in fixed) {
        if ((m, name) in meant) lines_of[meant[m, name]] += fixed[name]
        else fail("infix of an unknown name in " path ": " name)
    }
}

# ---- reading the types declared in Rattle
# use crate::{Type, other as Type};
function bring(file, text,    w, n, k, names, crate, name, as) {
    sub(/^(pub )?use /, "", text)
    sub(/;$/, "", text)
    crate = text
    sub(/::.*/, "", crate)
    names = text
    if (!sub(/^[^{]*::[{]/, "", names)) sub(/.*::/, "", names)
    else if (!sub(/[}]$/, "", names)) fail("an import that is not understood in " file ": " text)
    if (names ~ /[{}]|::/) fail("an import that is not understood in " file ": " text)
    n = split(names, w, ",")
    for (k = 1; k <= n; k++) {
        name = w[k]
        gsub(/^ +| +$/, "", name)
        as = name
        if (name ~ / as /) { sub(/.* as /, "", as); sub(/ as .*/, "", name) }
        if (as ~ /^[A-Z][A-Za-z0-9_]*$/) brought[file, as] = crate ":" name
    }
}
function load_source(file,    crate, line, got, w, n, id, opened, attributes, using) {
    crate = file
    sub(/^crates\//, "", crate)
    sub(/\/.*/, "", crate)
    while ((got = (getline line < file)) > 0) {
        sub(/ *\/\/.*/, "", line)
        if (line ~ /^ *$/) continue
        if (line ~ /^#\[/) { attributes++; continue }
        if (line ~ /extern "C" fn / && file != top && file != library) fail("an exported function elsewhere than in " top ": " file)
        if (using != "" || line ~ /^(pub )?use /) {
            using = using line
            if (line ~ /;$/) { bring(file, using); using = "" }
            continue
        }
        if (line ~ /^(pub )?(struct|enum) /) {
            sub(/^pub /, "", line)
            n = split(line, w, /[ <({;]/)
            id = crate ":" w[2]
            if (id in source_of) fail("two types of Rattle named " id)
            source_of[id] = file
            name_of[id] = w[2]
            kind_of[id] = w[1]
            lines_of[id] = attributes
            said[id] = ""
            order[file, ++count[file]] = id
            opened = id
        }
        attributes = 0
        if (opened != "") {
            lines_of[opened]++
            said[opened] = said[opened] "\n" line
            if (line ~ /^}/ || line ~ /;$/ || line ~ /^[^ ].*}$/) opened = ""
        }
    }
    if (got < 0) fail("cannot read " file)
    close(file)
}
# the types that a piece of Rattle names; pieces are cut at all that is not part of a name, but : ' stay
function rattle_types(file, text, crate,    w, n, k, word, to) {
    gsub(/::/, "@", text)
    gsub(/:/, " : ", text)
    gsub(/[^A-Za-z0-9_@\047:]+/, " ", text)
    n = split(text, w, " ")
    for (k = 1; k <= n; k++) {
        word = w[k]
        if (word == ":" || w[k + 1] == ":" || word ~ /^\047/) continue
        if (word ~ /^(pub|mut|bool|str|Option|Result|[ui](8|16|32|64|128|size))$/ || word ~ /^[0-9]+$/) continue
        to = ""
        if (word ~ /@/) { to = word; sub(/@.*@|@/, ":", to) }
        else if ((file, word) in brought) to = brought[file, word]
        else to = crate ":" word
        if (to in source_of) found["T " to]
        else fail("a type that is not known in " file ": " word)
    }
}
function scan_type(id,    file, w, n, k, line, crate, i) {
    file = source_of[id]
    crate = id
    sub(/:.*/, "", crate)
    n = split(said[id], w, "\n")
    for (k = 2; k <= n; k++) {
        line = w[k]
        if (k == 2) {
            if (!sub(/^(struct|enum) [A-Za-z0-9_]+(<\047[a-z]+>)?/, "", line)) fail("a type that is not understood: " id)
            # a struct without names for its fields
            if (line ~ /^\(/) for (i = split(line, tuple, ","); i > 0; i--) fields_of[id] = fields_of[id] " " (i - 1)
        } else if (kind_of[id] == "enum") sub(/^    [A-Z][A-Za-z0-9_]*/, "", line)
        rattle_types(file, line, crate)
        while (match(line, /[a-z_0-9]+:/)) {
            fields_of[id] = fields_of[id] " " substr(line, RSTART, RLENGTH - 1)
            line = substr(line, RSTART + RLENGTH)
        }
    }
}

# ---- what a name means
# D and a definition, C and the definition that a constructor is of; else as target says
function settle(to,    w) {
    split(to, w, " ")
    if (w[1] == "S") return export(w[2], w[3])
    if ((w[1] == "T" || w[1] == "V") && !(w[2] in source_of)) fail("a type that is not declared: " w[2])
    if (w[1] == "V" && !match(said[w[2]] "\n", "\n    " w[3] "[^A-Za-z0-9_]")) fail("a variant that is not declared: " w[2] " " w[3])
    if (w[1] == "V") return "V " w[2]
    if (w[1] == "X") fail("a path that is not understood: " w[2] " " w[3])
    return to
}
function own(m, name) {
    return ((m, name) in constructor ? "C " : "D ") meant[m, name]
}
function export(m, name,    w) {
    load(m)
    if ((m, name) in meant) return own(m, name)
    if ((m, name) in exported) {
        split(exported[m, name], w, "\n")
        return settle(w[2])
    }
    fail("there is no " name " in " m)
    return ""
}
function lookup(m, word,    w, n, k, one, all, dot) {
    one = ""
    if ((m, word) in meant) one = own(m, word)
    n = split(imported[m, word], w, "\n")
    for (k = 2; k <= n; k++) {
        all = settle(w[k])
        if (one != "" && one != all) fail("two meanings of " word " in " m)
        one = all
    }
    if (one == "") {
        n = split(part[m, word], w, " ")
        for (k = 1; k <= n; k++) {
            all = w[k] == word ? "" : lookup(m, w[k])
            if (one != "" && one != all) fail("two meanings of " word " in " m)
            one = all
        }
    }
    if (one == "" && (dot = index(word, ".")) > 1 && (m, substr(word, 1, dot - 1)) in alias)
        one = settle(target(alias[m, substr(word, 1, dot - 1)], substr(word, dot + 1)))
    return one
}

# ---- the names that a definition uses
function bind(name) {
    bound[name]++
    names[++names_n] = name
    level[names_n] = deepness
}
function unbind(to) {
    while (names_n > 0 && level[names_n] >= to) bound[names[names_n--]]--
}
function refer(m, word,    to) {
    if (bound[word] > 0) return
    to = lookup(m, word)
    if (to == "" && word in language) to = "K " language[word] " " word
    if (to == "") fail("a name that is not known in " m ": " word)
    else found[to]
}
function closing(i, last,    deep) {
    for (; i <= last; i++) {
        if (tok[i] ~ /^[({]$/) deep++
        if (tok[i] ~ /^[)}]$/ && --deep == 0) return i
    }
    return 0
}
# the place of the colon, where tok[i] opens (x y : ..) or {x y : ..}
function binder(i, last,    k) {
    if (tok[i] !~ /^[({]$/) return 0
    for (k = i + 1; k <= last; k++) {
        if (tok[k] == ":") return k > i + 1 ? k : 0
        if (tok[k] ~ /^[(){};,=.0-9]/ || tok[k] == "→" || tok[k] == "λ") return 0
    }
    return 0
}
# binds what tok[i] opens; says where it closes
function take_binder(m, i, last,    colon, end, k) {
    colon = binder(i, last)
    end = closing(i, last)
    if (!colon || !end) { fail("a binder that is not understood in " m ": " tok[i] " " tok[i + 1]); return last }
    deepness++
    scan(m, colon + 1, end - 1, "")
    unbind(deepness)
    deepness--
    for (k = i + 1; k < colon; k++) bind(tok[k])
    return end
}
# the words from..last: a type, what stands behind =, or (head = 1) the parameters of a record, data or module
function scan(m, from, last, head,    i, t, end) {
    for (i = from; i <= last; i++) {
        t = tok[i]
        if (binder(i, last)) {
            end = closing(i, last)
            if (!head && tok[end + 1] != "→" && !binder(end + 1, last)) fail("a colon that is not understood in " m ": " tok[i + 1])
            i = take_binder(m, i, last)
        } else if (t == "(" || t == "{") {
            bracket[++deepness] = (t == "{" && tok[i - 1] == "record") ? "record" : t
            if (bracket[deepness] == "record") i = take_field(m, i)
        } else if (t == ")" || t == "}") {
            unbind(deepness)
            deepness--
        } else if (t == ";" || t == ",") {
            unbind(deepness)
            if (bracket[deepness] == "record") i = take_field(m, i)
        } else if (t == "λ") {
            for (i++; i <= last; i++) {
                t = tok[i]
                if (t == ".") break
                if (t ~ /^[({]$/) i = take_binder(m, i, last)
                else if (t ~ /\.$/) { bind(substr(t, 1, length(t) - 1)); break }
                else bind(t)
            }
            if (i > last) fail("a λ that is not understood in " m)
        } else if (t ~ /^\../) use_fields(substr(t, 2))
        else if (t ~ /^[0-9]/ || t == "_" || t == "→" || t == "record") continue
        else if (head && (t == ":" || t == "where")) continue
        else if (t == "=" || t == ":") fail("a " t " that is not understood in " m " by " tok[i - 1])
        else use_word(m, t)
    }
}
# a name, or the fields of one: x.f.g
function use_word(m, t,    dot, first) {
    dot = index(t, ".")
    first = substr(t, 1, dot - 1)
    if (dot < 2 || !(bound[first] > 0) && (m, first) in alias) { refer(m, t); return }
    refer(m, first)
    use_fields(substr(t, dot + 1))
}
function use_fields(text,    w, n, k) {
    n = split(text, w, ".")
    for (k = 1; k <= n; k++) if (w[k] == "") fail("a field that is not understood: " text); else use_field(w[k])
}
# the name of a field in record { .. }, behind tok[i]
function take_field(m, i) {
    if (tok[i + 1] == "}") return i
    if (tok[i + 2] != "=") fail("a field that is not understood in " m ": " tok[i + 1])
    use_field(tok[i + 1])
    return i + 2
}
function use_field(name) {
    gsub(/«|»/, "", name)
    found["F " name]
}
# the patterns of a clause; says where its = is
function patterns(m, id, last,    i, t, deep, self, to, mixed) {
    mixed = name_of[id] ~ /◌/
    for (i = 1; i <= last; i++) {
        t = tok[i]
        if (t ~ /^[({]$/) deep++
        else if (t ~ /^[)}]$/) deep--
        else if (t == "=" && deep == 0) break
        else if (t == "record" || t == ":" || t == "=" || t ~ /^\./) fail("a pattern that is not understood in " m ": " t)
        else if (t ~ /^[0-9]/ || t == "_") continue
        else if (!mixed && i == 1 && t == name_of[id]) self = 1
        else if (mixed && index("◌" name_of[id] "◌", "◌" t "◌")) self = 1
        else {
            to = lookup(m, t)
            if (to ~ /^[CVK]/) found[to]
            else if (t ~ /\./) fail("a name that is not known in " m ": " t)
            else bind(t)
        }
    }
    if (!self || i > last) fail("a clause that is not of " name_of[id] " in " m ": " tok[1])
    return i
}
# open t use {x, y as z}: t is a record, and the names are those of its fields
function take_open(m, line,    w, n, k, last, name, as) {
    last = cut_words(line, tok)
    for (k = 2; k <= last; k++) if (tok[k] == "use") break
    if (k < 3 || tok[k + 1] != "{" || tok[last] != "}") { fail("an open that is not understood in " m ": " line); return }
    scan(m, 2, k - 1, 0)
    sub(/.* use [{]/, "", line)
    sub(/[}].*/, "", line)
    n = split(line, w, ",")
    for (k = 1; k <= n; k++) {
        name = w[k]
        gsub(/^ +| +$/, "", name)
        as = name
        if (name ~ / as /) { sub(/.* as /, "", as); sub(/ as .*/, "", name) }
        if (name ~ /[ .{]/ || lookup(m, as) != "") fail("an open that is not understood in " m ": " name)
        use_field(name)
        bind(as)
    }
}
function scan_definition(id,    m, w, n, k, i, last, kind) {
    m = file_of[id]
    names_n = 0
    split("", bound)
    deepness = 0
    n = split(around[id], w, " ")
    for (k = 1; k <= n; k++) {
        last = cut_words(telescope[w[k]], tok)
        scan(m, 1, last, 1)
        found["M " w[k]]
        for (i = 1; i <= opens[w[k]]; i++) take_open(m, opened[w[k], i])
    }
    for (k = 1; k <= chunks[id]; k++) {
        split("", tok)
        last = cut_words(chunk[id, k], tok)
        kind = chunk_kind[id, k]
        deepness = kind == "head" ? 1 : 2
        if (kind == "head" || kind == "type") scan(m, 1, last, kind == "head")
        else if (kind == "clause") scan(m, patterns(m, id, last) + 1, last, 0)
        else scan(m, 3, last, 0)
        if (deepness != (kind == "head" ? 1 : 2)) fail("brackets that don't close in " m ": " name_of[id])
        unbind(2)
        deepness = 1
        if (kind == "field") bind(tok[1])
    }
}
# the names that KIND AND NAME uses, kept in uses[], separated by newlines
function uses_of(what,    w, k) {
    if (what in uses) return uses[what]
    split("", found)
    split(what, w, " ")
    if (w[1] == "T") scan_type(w[2])
    else scan_definition(substr(what, 3))
    uses[what] = ""
    for (k in found) uses[what] = uses[what] "\n" k
    return uses[what]
}

# ---- the contracts
# crates/sdp_c/src/lib.rt: imports, and for each exported function its parameters, types, and promises
function load_contracts(    line, got, name, text) {
    while ((got = (getline line < top)) > 0) {
        sub(/ *\/\/.*/, "", line)
        if (line ~ /^ghost use /) { sub(/^ghost use /, "", line); import("contracts", line, 0) }
        if (line ~ /extern "C" fn /) {
            name = line
            sub(/.*extern "C" fn /, "", name)
            sub(/[^A-Za-z0-9_].*/, "", name)
            functions[++functions_n] = name
            text = ""
        } else if (line ~ /^fn |^pub fn /) name = ""
        if (name != "") {
            if (line ~ /^[{]/) { contract[name] = text; name = "" }
            else text = text " " line
        }
    }
    if (got < 0 || !functions_n) fail("no exported function in " top)
    close(top)
}
function scan_contract(name,    text, head, params, k, last, at) {
    split("", found)
    text = contract[name]
    at = index(text, " ensures ")
    if (!at) { fail("no contract of " name); return }
    head = substr(text, 1, at)
    text = substr(text, at)
    sub(/.*extern "C" fn [A-Za-z0-9_]*/, "", head)
    gsub(/->/, " ", head)
    rattle_types(top, head, "sdp_c")
    names_n = 0
    split("", bound)
    deepness = 0
    params = head
    while (match(params, /[a-z_0-9]+:/)) {
        bind(substr(params, RSTART, RLENGTH - 1))
        params = substr(params, RSTART + RLENGTH)
    }
    bind("result")
    last = cut_words(text, tok)
    deepness = 1
    for (k = 1; k <= last; k++) if (tok[k] ~ /^(ensures|requires)$/) {
        tok[k] = "_"
        # the clause's name
        if (tok[k + 1] != "{") tok[++k] = "_"
    }
    scan("contracts", 1, last, 0)
}

# ---- all that a function rests on: in seen[]
function close_over(name,    todo, n, k, w, i, what, any) {
    split("", seen)
    split("", wanted)
    scan_contract(name)
    for (k in found) todo[++n] = k
    while (n > 0) {
        what = todo[n--]
        if (what ~ /^F /) { wanted[substr(what, 3)]; continue }
        if (what ~ /^C /) what = "D " substr(what, 3)
        if (what ~ /^V /) what = "T " substr(what, 3)
        if (what in seen) continue
        seen[what]
        if (what !~ /^[DT]/) continue
        i = split(uses_of(what), w, "\n")
        for (; i > 1; i--) todo[++n] = w[i]
    }
    # every field that is named is one of a record that was found
    split("now old new 0 1", w, " ")
    split("", any)
    for (k in w) any[w[k]]
    for (what in seen) {
        i = split(fields_of[substr(what, 3)], w, " ")
        for (; i > 0; i--) any[w[i]]
    }
    for (k in wanted) if (!(k in any)) fail(name ": a field of no record that was found: " k)
}
function sort(a, n,    i, j, x) {
    for (i = 2; i <= n; i++) {
        x = a[i]
        for (j = i - 1; j > 0 && a[j] > x; j--) a[j + 1] = a[j]
        a[j + 1] = x
    }
}
# sets files[], file_names[], file_defs[], file_lines[] and the sums
function tally(    k, m, path, id, key, w) {
    files_n = types_n = types_lines = defs_n = defs_lines = kits_n = 0
    split("", file_names)
    split("", file_defs)
    split("", file_lines)
    split("", kit)
    for (k in seen) {
        id = substr(k, 3)
        if (k ~ /^D /) { path = path_of[file_of[id]]; key[path] = file_of[id]; defs_n++; defs_lines += lines_of[id] }
        else if (k ~ /^T /) { path = source_of[id]; key[path] = path; types_n++; types_lines += lines_of[id] }
        else if (k ~ /^M /) { path = path_of[mod_file[id]]; file_lines[path] += 1 + opens[id]; defs_lines += 1 + opens[id]; continue }
        else { split(k, w, " "); kit[w[2]] = kit[w[2]] "\n" w[3]; continue }
        if (!(path in file_defs)) files[++files_n] = path
        file_defs[path]++
        file_lines[path] += lines_of[id]
    }
    sort(files, files_n)
    for (m = 1; m <= files_n; m++) {
        path = files[m]
        for (k = 1; k <= count[key[path]]; k++) {
            id = order[key[path], k]
            if (("D " id) in seen || ("T " id) in seen) file_names[path] = file_names[path] " " name_of[id]
        }
    }
    for (k in kit) kits[++kits_n] = k
    sort(kits, kits_n)
}
# words in lines of at most 120 bytes
function wrapped(text, indent,    w, n, k, line, out) {
    n = split(text, w, " ")
    line = w[1]
    for (k = 2; k <= n; k++) {
        if (length(line) + length(w[k]) >= 120) { out = out line "\n"; line = indent w[k] }
        else line = line " " w[k]
    }
    return out line
}
function counted(n, one) { return n " " one (n == 1 ? "" : "s") }
function print_list(name,    k, i, path, w, n, text) {
    print name ": " counted(defs_n + types_n, "definition") ", " counted(defs_lines + types_lines, "line") ", " counted(files_n, "file")
    for (i = 0; i < 2; i++) {
        print i ? "types of Rattle: " types_n ", " counted(types_lines, "line") : "definitions of specs: " defs_n ", " counted(defs_lines, "line")
        for (k = 1; k <= files_n; k++) {
            path = files[k]
            if ((path ~ /\.rt$/) == i) print wrapped("- " path " (" file_defs[path] ", " counted(file_lines[path], "line") "):" file_names[path], "    ")
        }
    }
    print "the kit's own:"
    for (k = 1; k <= kits_n; k++) {
        n = split(substr(kit[kits[k]], 2), w, "\n")
        sort(w, n)
        text = "- " kits[k] ":"
        for (i = 1; i <= n; i++) text = text " " w[i]
        print wrapped(text, "    ")
    }
}
function page_list(name,    k, i, path, out) {
    out = "\n`" name "`, definitions of specs:\n\n"
    for (i = 0; i < 2; i++) {
        if (i) out = out "\n`" name "`, types declared in Rattle:\n\n"
        for (k = 1; k <= files_n; k++) {
            path = files[k]
            if ((path ~ /\.rt$/) == i)
                out = out wrapped("- `" path "` (" counted(file_lines[path], "line") "): `" substr(file_names[path], 2) "`", "  ") "\n"
        }
    }
    return out
}
BEGIN {
    top = "crates/sdp_c/src/lib.rt"
    # says the same to Rattle: gate/check-public holds the one to the other
    library = "crates/sdp/src/lib.rt"
    # words that need no import
    split("Type × ⊎ ⊥ Unit", w, " ")
    for (k in w) language[w[k]] = "language"
    n = split(sources, w, " ")
    for (k = 1; k <= n; k++) load_source(w[k])
    load_contracts()
    n = split(asked, w, " ")
    for (k = 1; k <= n; k++) if (!(w[k] in contract)) fail("no exported function " w[k])
    if (page) {
        print "| exported function | definitions | lines | files |"
        print "|---|---|---|---|"
    }
    for (f = 1; f <= functions_n; f++) {
        name = functions[f]
        if (asked != "" && index(" " asked " ", " " name " ") == 0) continue
        close_over(name)
        tally()
        if (page) {
            print "| `" name "` | " defs_n + types_n " | " defs_lines + types_lines " | " files_n " |"
            if (name == "sdp_read" || name == "sdp_fill" || name == "sdp_starts") rest = rest page_list(name)
        } else print_list(name)
    }
    if (page) printf "%s", rest
    exit bad
}
