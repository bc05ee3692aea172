# From `objdump -d` of a compiled object to the assembly of the tables that coverage.h names. The
# padding between instructions is left out.
#
#   awk -v listing=FILE -f instructions.awk
#
# The listing gets a line for each instruction: function, place in it, instruction.

BEGIN {
    print "\t.section .data.rel.ro,\"aw\""
    print "\t.globl coverage_instructions"
    print "coverage_instructions:"
}

/^[0-9a-f]+ <.*>:$/ {
    name = $0
    sub(/^[^<]*</, "", name)
    sub(/>:$/, "", name)
}

/^ +[0-9a-f]+:\t/ {
    place = $1
    sub(/:$/, "", place)
    instruction = $0
    sub(/^[^\t]*\t/, "", instruction)
    if (instruction ~ /nop|^int3|^xchg +%ax,%ax/)
        next
    printf "\t.quad \"%s\" + 0x%s\n", name, place
    print name, place, instruction >listing
    count++
}

END {
    print "\t.globl coverage_length"
    print "coverage_length:"
    print "\t.quad", count
    print "\t.section __libfuzzer_extra_counters,\"aw\""
    print "\t.globl coverage_counters"
    print "coverage_counters:"
    print "\t.zero", count
    print "\t.section .note.GNU-stack,\"\",@progbits"
}
