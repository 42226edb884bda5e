# Writes the text of a captured module for another machine: awk -v layout=.. -v triple=.. -v remainder=.. -f retarget.awk MODULE.ll
# What changes: the line of the data layout, the line of the triple, the attributes "target-cpu", "probe-stack" and "stack-probe-size", and each
# remainder of two singles, which becomes a call of a function (formula_remainder, proved to be that). Everything else is printed as it stands.
# A module is refused if it holds anything that is not known here to mean the same on every machine: every word of it must be listed below,
# so integers made of pointers, assembly, vectors, types of one processor or functions of others are refused without being named.

function list(into, words,    each, count, i) {
    count = split(words, each, " ")
    for (i = 1; i <= count; i++) into[each[i]]
}

function refuse(what) {
    print "retarget: line " NR " of the module: " what ": " $0 > "/dev/stderr"
    refused = 1
    exit 1
}

# The line without names, texts and numbers: what is left are words of LLVM.
function check_words(line,    each, count, i) {
    gsub(/[%@]"[^"]*"/, " ", line)
    gsub(/c"[^"]*"/, " ", line)
    gsub(/[%@!#][A-Za-z0-9_.]+/, " ", line)
    gsub(/captures\(none\)|memory\([a-z]+(: [a-z]+)?\)/, " ", line)
    gsub(/[][(){},=*]/, " ", line)
    count = split(line, each, " ")
    for (i = 1; i <= count; i++) {
        if (!(each[i] in known) && each[i] !~ /^(-?[0-9]+|0x[0-9A-F]+|-?[0-9]+[.][0-9]+e[+-][0-9]+)$/) refuse("the word " each[i])
    }
}

BEGIN {
    # tables are written as bytes, the lowest first, and pairs of values are read whole, each at a multiple of its size
    if (layout !~ /"e-/ || layout !~ /-i64:64[-"]/) refuse("a machine that lays numbers out otherwise than x86-64")
    list(known, "define declare internal attributes align noundef zeroext to x void ptr i1 i8 i16 i32 i64 float double true false null")
    list(known, "alloca load store extractvalue getelementptr inbounds nuw nsw call ret br label switch unreachable")
    list(known, "add sub mul udiv sdiv urem srem shl lshr ashr and or xor trunc zext sext bitcast icmp eq ne ult ule ugt uge slt sle sgt sge")
    list(known, "fadd fsub fmul fdiv fneg fpext fptrunc uitofp sitofp fptoui fptosi fcmp oeq one olt ole ogt oge ord une uno")
    list(known, "private unnamed_addr constant")
    list(known, "nounwind nocallback nocreateundeforpoison nofree nosync willreturn noreturn cold speculatable writeonly readonly immarg")
    list(known, "alwaysinline noinline")
    list(functions, "llvm.trap llvm.memmove.p0.p0.i64 llvm.memcpy.p0.p0.i64 llvm.memset.p0.i64 llvm.ctlz.i32 llvm.ctlz.i64")
    list(functions, "llvm.arithmetic.fence.f32 llvm.arithmetic.fence.f64")
}

/^$/ || /^;/ || /^source_filename = "rattle"$/ || /^}$/ || /^!/ { print; next }
/^target datalayout = / { print layout; next }
/^target triple = / { print triple; next }
/^attributes #/ {
    sub(/ "probe-stack"="inline-asm"/, "")
    sub(/ "stack-probe-size"="[0-9]+"/, "")
    sub(/ "target-cpu"="x86-64(-v2)?"/, "")
    if (/"/) refuse("an attribute")
}
/^declare / {
    name = $0
    sub(/^[^@]*@/, "", name)
    sub(/\(.*/, "", name)
    if (!(name in functions)) refuse("a function of others")
}
/ frem / {
    if (!/^  %[A-Za-z0-9_.]+ = frem float %[A-Za-z0-9_.]+, %[A-Za-z0-9_.]+$/) refuse("a remainder of another form")
    sub(/frem float %/, "call float @" remainder "(float %")
    sub(/, %/, ", float %")
    $0 = $0 ")"
    wanted = 1
}
/^define / && index($0, "@" remainder "(") { defined = 1 }
/^[A-Za-z0-9_.]+:/ { print; next }
/^(attributes|declare|define|@|  )/ { check_words($0); print; next }
{ refuse("a form") }

END {
    if (refused) exit 1
    if (wanted && !defined) print "declare float @" remainder "(float, float)"
}
