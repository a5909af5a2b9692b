# The C program that holds the structs of include/oxbreathe.h against those of the crates: it has the crates' as C lays them out, in
# their own order and of their own types, and tests the size and alignment of each, and of each field the offset, the size and the
# type. That the header has no other field, gate/interface.sh tests.
#   awk -f gate/exported.awk -f host/importer/layout.awk crates/*/src/*.rt
function wrong(what) {
    print "layout: " what >"/dev/stderr"
    failed = 1
}
# a struct of the crates in the program, where a struct inside it is the header's, which is held as well
function ours(rattle) {
    sub(/::/, "_", rattle)
    return rattle
}
END {
    if (failed) exit 1
    print "#include \"oxbreathe.h\"\n#include <stdio.h>\n"
    print "static unsigned passed, failed;"
    print "static void check(bool holds, const char *what) {"
    print "    if (holds)"
    print "        passed++;"
    print "    else {"
    print "        failed++;"
    print "        printf(\"not as in the crates: %s\\n\", what);"
    print "    }"
    print "}"
    print "#define SIZE(ours, theirs) check(sizeof(ours) == sizeof(theirs) && _Alignof(ours) == _Alignof(theirs), \"size of \" #theirs)"
    print "#define FIELD(ours, our, theirs, their, type)                                                             \\"
    print "    check(offsetof(ours, our) == offsetof(theirs, their), \"offset of \" #theirs \".\" #their);               \\"
    print "    check(sizeof(((ours *)0)->our) == sizeof(((theirs *)0)->their), \"size of \" #theirs \".\" #their);       \\"
    print "    check(_Generic(&((theirs *)0)->their, type: true, default: false), \"type of \" #theirs \".\" #their)"
    for (k = 1; k <= structs; k++) {
        print "\ntypedef struct {"
        for (i = 1; i <= count[struct[k]]; i++)
            print "    " declaration(type[struct[k], i], name[struct[k], i]) ";"
        print "} " ours(struct[k]) ";"
    }
    print "\nint main(void) {"
    for (k = 1; k <= structs; k++) {
        its = struct[k]
        theirs = struct_name("C", its)
        print "    SIZE(" ours(its) ", " theirs ");"
        for (i = 1; i <= count[its]; i++) {
            pointer = declaration(type[its, i], "(*)")
            print "    FIELD(" ours(its) ", " name[its, i] ", " theirs ", " declared("C", its, name[its, i]) ", " pointer ");"
        }
    }
    print "    printf(\"%u passed, %u failed\\n\", passed, failed);\n    return failed > 0;\n}"
}
