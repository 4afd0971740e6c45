# Prints each declaration that breaks a rule of names, which the head of font_types.h states. Reads
# each on a line, such as `uint16_t fty_u16(fty_view view,size_t offset)`.

function broken(rule) {
    print rule ": " $0
}

# The type of a number of a format, or of an integer.
function type_of(word) {
    if (word ~ /^(fixed|f26dot6)$/)
        return "int32_t"
    if (word == "f2dot14" || word == "f48dot16")
        return word == "f2dot14" ? "int16_t" : "int64_t"
    sub(/24$/, "32", word)
    return (word ~ /^u/ ? "uint" : "int") substr(word, 2) "_t"
}

# What a type of OpenType has.
function expects(name, type, has_several) {
    known[type " fty_" name "(fty_view view,size_t offset)"]
    known["fty_status fty_read_" name "(fty_view view,size_t offset," type " *value)"]
    known["fty_status fty_take_" name "(fty_view *rest," type " *value)"]
    known["fty_status fty_put_" name "(fty_span *rest," type " value)"]
    known["fty_status fty_write_" name "(fty_span span," type " value)"]
    if (has_several) {
        known[type " fty_peek_" name "(const uint8_t *at)"]
        known["void fty_poke_" name "(uint8_t *at," type " value)"]
    }
}

BEGIN {
    count = split("u8 i8 u16 i16 u24 u32 i32 i64", names)
    for (i = 1; i <= count; i++)
        expects(names[i], type_of(names[i]), names[i] !~ /8/)
}

{
    result = $0
    sub(/ \*?fty_[a-z0-9_]+\(.*/, "", result)
    name = substr($0, length(result) + 2)
    sub(/^\*?fty_/, "", name)
    sub(/\(.*/, "", name)
    given = $0
    sub(/.*\(/, "", given)
    sub(/\)$/, "", given)
    count = split(given, parameter, ",")
    last = parameter[count]
    subject = name
    sub(/_.*/, "", subject)
    end = name
    sub(/.*_/, "", end)
    is_abi = subject == "abi"
    stores = last ~ /\*/ && last !~ /^const /
    is_format = subject ~ /^(fixed|f[0-9]+dot[0-9]+)$/
}

# A name begins with what the function is of.
!is_abi {
    if ((given ~ /fty_matrix /) != (subject == "matrix"))
        broken("matrix")
    if ((given ~ /^fty_numbers /) != (subject == "delta"))
        broken("delta")
    if ((given ~ /(^|,)uint32_t \*?tag(,|$)/) != (subject == "tag"))
        broken("tag")
    if ((result == "fty_span") != (subject == "span"))
        broken("span")
    if ((given ~ /^fty_status /) != (subject == "status"))
        broken("status")
    if (!is_format && subject !~ /^(matrix|delta|tag|span|status)$/ && result != "fty_view" \
        && given !~ /^((fty_view|fty_span) |(const )?uint8_t \*at|void)/ \
        && given !~ /(^|,)fty_fraction / && end !~ /^[ui][0-9]+$/)
        broken("subject")
}

# A function of a format has the type of the format, except what it converts from or to.
is_format {
    from = to = subject
    if (name ~ /_to_/)
        to = end
    if (name ~ /_from_/)
        from = end
    if (result == "fty_status")
        result_type = last
    else
        result_type = result " "
    is_right = result_type ~ "^(" type_of(to) " |size_t \\*length)"
    for (i = 1; i <= count && parameter[i] != last; i++)
        if (parameter[i] !~ "^(" type_of(from) " |const char |size_t length$|fty_buffer )")
            is_right = 0
    if (!is_right || (!stores && last !~ "^" type_of(from) " "))
        broken("format")
}

# A type that ends a name is one that the function takes or gives.
end ~ /^[ui][0-9]+$/ && index($0, type_of(end) " ") == 0 && index(given, type_of(end) " ") == 0 {
    broken("type")
}

# Each type of OpenType has each function of fields, and no other type has any.
name ~ /^((read|take|put|write|peek|poke)_)?[a-z][0-9]+$/ {
    if ($0 in known)
        delete known[$0]
    else
        broken("field")
}

# What moves, and what does not.
(given ~ /^fty_(view|span) \*rest/) != (name ~ /^(take|skip|put|span_take)(_|$)/) \
    || given ~ /fty_(view|span) \*[^r]/ || (name ~ /^write_/ && given !~ /^fty_span [a-z]/) \
    || (name ~ /^read_/ && given !~ /^fty_view [a-z]/) {
    broken("moves")
}

# Text.
!is_abi && ((given ~ /^const char \*text,size_t length,/) != (name ~ /(^|_)parse(_|$)/) \
    || (given ~ /,fty_buffer out,size_t \*length$/) != (name ~ /(^|_)format(_|$)/)) {
    broken("text")
}

# What can fail.
name ~ /(^|_)checked_/ && result != "fty_status" { broken("checked") }
(result == "fty_status") != (stores || name ~ /^(put|write)_/) && last !~ /\*(rest|at)$/ \
    && parameter[1] !~ /\*(rest|at)$/ && name != "matrix_transform_points" {
    broken("status")
}

# Words for sizes.
{
    for (i = 1; i <= count; i++)
        if (parameter[i] ~ /^size_t / \
            && parameter[i] !~ /[ _*](offset|length|count|size|index|room)$/)
            broken("size")
}

is_abi {
    twins[substr(name, 5)]
    if (given ~ /fty_(view|span|buffer|numbers) /)
        broken("abi")
}
!is_abi { others[name] }

END {
    for (line in known)
        print "field: no " line
    for (twin in twins)
        if (!(twin in others))
            print "abi: no fty_" twin
}
