# Reads what `objdump -dr --no-show-raw-insn` writes of x86-64 code. Prints the stack that each function
# takes, its return address included, and what it calls. A function takes eight bytes by each push, and
# its locals, which it gives back in one step before it returns; one that calls nothing may use the 128
# bytes below these too.

function number(hex,    i, n) {
    for (i = 1; i <= length(hex); i++) n = 16 * n + index("0123456789abcdef", substr(hex, i, 1)) - 1
    return n
}

function say() {
    if (name == "") return
    if (calls == "") printf "  %s: %d bytes\n", name, pushed + locals + 128
    else printf "  %s: %d bytes, and what these take:%s\n", name, pushed + locals, calls
}

/^[0-9a-f]+ <.*>:$/ { say(); name = substr($2, 2, length($2) - 3); pushed = 8; locals = 0; calls = "" }
$2 == "push" { pushed += 8 }
$2 == "add" && $3 ~ /^\$0x[0-9a-f]+,%rsp$/ && $3 !~ /ffffffff/ { n = number(substr($3, 4, length($3) - 8)); if (locals < n) locals = n }
$2 == "sub" && $3 == "$0xffffffffffffff80,%rsp" { locals = 128 }
$2 == "R_X86_64_PLT32" { sub(/-0x4$/, "", $3); sub(/^\.text\./, "", $3); if (index(calls " ", " " $3 " ") == 0) calls = calls " " $3 }
END { say() }
