# The examples of C as one program: of a header the indented lines of its comments, of a README what stands in fences of C,
# each fence in a block of its own. An assertion that fails names the line where its example stands.
BEGIN {
    print "#include \"oxbreathe.h\"\n#include <stdio.h>\n#include <string.h>\n"
    print "static int examples[2]; /* that failed, that passed */"
    print "static void example(bool holds, const char *file, int line, const char *what) {"
    print "    examples[holds]++;"
    print "    if (!holds)"
    print "        printf(\"%s:%d: not so: %s\\n\", file, line, what);"
    print "}"
    print "#undef assert\n#define assert(holds) example((holds), __FILE__, __LINE__, #holds)\n"
    print "int main(void) {"
}
FILENAME ~ /\.h$/ && sub(/^ \*     /, "    ") { example() }
FILENAME ~ /\.md$/ && /^```$/ && fenced { print "    }"; fenced = 0 }
FILENAME ~ /\.md$/ && fenced { example() }
FILENAME ~ /\.md$/ && /^```c$/ { print "    {"; fenced = 1 }
END { print "    printf(\"%d passed, %d failed\\n\", examples[1], examples[0]);\n    return examples[0] > 0;\n}" }

function example() { printf "#line %d \"%s\"\n%s\n", FNR, FILENAME, $0 }
