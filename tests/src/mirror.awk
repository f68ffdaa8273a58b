# Writes the #[repr(C)] structs and the C functions of some Rattle or Rust text again in C, to be compiled behind fogatise.h.
# The struct FlatFitAnswer of src/, and FitAnswer of the Rust wrapper, is fog_fit_answer in the header, and LentRun is
# fog_run: it is laid out a second time, and static assertions hold sizes, and the place and the type of each field by its
# name, against the header's. A function is declared a second time, which a C compiler refuses where its type is another.
# A bool has no C type here: C has bytes.
function flat(name) {
    sub(/^(Flat|Lent)/, "", name)
    gsub(/[A-Z]/, "_&", name)
    return tolower(name)
}
function type(word, made) { return word in c ? c[word] : made flat(word) }
function assert(what, said) { fields = fields "\n_Static_assert(" what ", \"" said "\");" }

# An argument: a slice is a pointer and a length.
function argument(word) {
    sub(/^[^:]*: */, "", word)
    if (sub(/^&('[a-z]+ )?mut \[/, "", word)) { sub(/\]/, "", word); return type(word, "fog") " *, size_t" }
    if (sub(/^&('[a-z]+ )?\[/, "", word)) { sub(/\]/, "", word); return "const " type(word, "fog") " *, size_t" }
    if (sub(/^\*const /, "", word)) return "const " type(word, "fog") " *"
    if (sub(/^\*mut /, "", word)) return type(word, "fog") " *"
    return type(word, "fog")
}
function declare(text,    name, listed, answer, words, count, i, line) {
    name = text; sub(/^.*fn /, "", name); sub(/[<(].*/, "", name)
    answer = text; sub(/^.*\) -> /, "", answer); sub(/[^A-Za-z0-9].*/, "", answer)
    listed = text; sub(/^[^(]*\( */, "", listed); sub(/,? *\).*/, "", listed)
    count = split(listed, words, /, */)
    for (i = 1; i <= count; i++) line = line (i > 1 ? ", " : "") argument(words[i])
    print type(answer, "fog") " " name "(" line ");"
}

BEGIN { c["u8"] = "uint8_t"; c["u16"] = "uint16_t"; c["u32"] = "uint32_t"; c["u64"] = "uint64_t"; c["usize"] = "size_t"; c["f64"] = "double"; }

/^#\[repr\(C\)\]/ { next_is = 1; next }
next_is && /^pub struct/ { name = flat($3); print "typedef struct {"; fields = ""; next_is = 0; inside = 1; next }
inside && /^}/ {
    assert("sizeof(fog" name ") == sizeof(mirror" name ")", "size of fog" name)
    print "} mirror" name ";" fields
    inside = 0
}
inside && /pub / {
    field = $2; word = $3; count = ""
    sub(/:/, "", field); sub(/,/, "", word)
    if (word ~ /^\[/) { word = substr(word, 2); sub(/;/, "", word); count = $4; sub(/\].*/, "", count); count = "[" count "]" }
    print "    " type(word, "mirror") " " field count ";"
    said = "fog" name "." field
    assert("offsetof(fog" name ", " field ") == offsetof(mirror" name ", " field ")", "place of " said)
    assert("sizeof(((fog" name " *)0)->" field ") == sizeof(((mirror" name " *)0)->" field ")", "size of " said)
    if (word in c && count == "") assert("_Generic(((fog" name " *)0)->" field ", " c[word] ": 1, default: 0)", "type of " said)
}

/^ *pub (extern "C" )?fn fog_/ { signature = ""; open = 1 }
open { signature = signature $0 " " }
open && /\)/ { declare(signature); open = 0 }
