# Calls that stand before the library's and exchange two parameters of one type, for the C program's own test: it is to fail whichever
# exchange EXCHANGE names, since it would not see that one in the library either. The comments number the exchanges.
#   awk -f gate/exported.awk -f host/importer/exchange.awk crates/*/src/*.rt
function wrong(what) {
    print "exchange: " what >"/dev/stderr"
    failed = 1
}
# the parameters of a call as C declares them
function parameters(its,    i, list, item, constant) {
    for (i = 1; i <= count[its]; i++) {
        item = type[its, i]
        constant = item ~ /^&\[/ ? "const " : ""
        list = list (i > 1 ? ", " : "")
        if (sub(/^&(mut )?\[/, "", item))
            list = list constant declaration(substr(item, 1, length(item) - 1), "(*p" i ")") ", size_t n" i
        else list = list declaration(item, "p" i)
    }
    return list
}
# what it is called with, parameters a and b exchanged
function arguments(its, a, b,    i, at, list) {
    for (i = 1; i <= count[its]; i++) {
        at = i == a ? b : i == b ? a : i
        list = list (i > 1 ? ", " : "") "p" at (type[its, at] ~ /^&/ ? ", n" at : "")
    }
    return list
}
END {
    if (failed) exit 1
    print "#include \"oxbreathe.h\"\n#include <stdlib.h>\n"
    print "static int exchange(void) {"
    print "    const char *number = getenv(\"EXCHANGE\");"
    print "    return number ? atoi(number) : 0;"
    print "}"
    for (k = 1; k <= calls; k++) {
        its = call[k]
        body = ""
        for (a = 1; a <= count[its]; a++)
            for (b = a + 1; b <= count[its]; b++)
                if (type[its, a] == type[its, b]) {
                    body = body "    if (exchange() == " ++exchanges ")\n"
                    body = body "        return __real_" its "(" arguments(its, a, b) "); // " exchanges " "
                    body = body name[its, a] " and " name[its, b] " of " its "\n"
                }
        if (body == "") continue
        print "\n" in_c(answer[its]) " __real_" its "(" parameters(its) ");"
        print in_c(answer[its]) " __wrap_" its "(" parameters(its) ");"
        print in_c(answer[its]) " __wrap_" its "(" parameters(its) ") {"
        print body "    return __real_" its "(" arguments(its, 0, 0) ");\n}"
    }
}
