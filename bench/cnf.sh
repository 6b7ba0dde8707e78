# Makes CNF files, for the other scripts of this folder, which source it.

# Random 3-SAT at 4.26 clauses a variable, by the generator of Park and Miller (1988): VARIABLES SEED
random() {
    awk -v n="$1" -v seed="$2" '
        function next_below(m) { state = state * 16807 % 2147483647; return state % m }
        BEGIN {
            state = seed * 1000003; clauses = int(4.26 * n + 0.5)
            print "p cnf", n, clauses
            for (i = 0; i < clauses; i++) {
                a = next_below(n) + 1
                do b = next_below(n) + 1; while (b == a)
                do c = next_below(n) + 1; while (c == a || c == b)
                print (next_below(2) ? a : -a), (next_below(2) ? b : -b), (next_below(2) ? c : -c), 0
            }
        }'
}

# HOLES + 1 pigeons in HOLES holes.
pigeons() {
    awk -v h="$1" '
        BEGIN {
            print "p cnf", h * (h + 1), h + 1 + h * h * (h + 1) / 2
            for (p = 0; p <= h; p++) { for (k = 1; k <= h; k++) printf "%d ", p * h + k; print 0 }
            for (k = 1; k <= h; k++) for (p = 0; p <= h; p++) for (q = p + 1; q <= h; q++) print -(p * h + k), -(q * h + k), 0
        }'
}

# a times b and b times a differ in some bit, with operands of BITS bits.
multiplier() {
    awk -v w="$1" '
        function clause(text) { body = body text " 0\n"; clauses++ }
        function gate_and(x, y) { top++; clause(-top " " x); clause(-top " " y); clause(top " -" x " -" y); return top }
        function gate_xor(x, y) { top++; clause(-top " " x " " y); clause(-top " -" x " -" y); clause(top " -" x " " y); clause(top " " x " -" y); return top }
        function gate_maj(x, y, z) {
            top++
            clause(-top " " x " " y); clause(-top " " x " " z); clause(-top " " y " " z)
            clause(top " -" x " -" y); clause(top " -" x " -" z); clause(top " -" y " -" z)
            return top
        }
        function product(first, second, out,    i, j, carry, bit, old) {
            for (j = 0; j < w; j++) sum[j] = gate_and(first + j, second)
            out[0] = sum[0]
            for (j = 0; j < w - 1; j++) sum[j] = sum[j + 1]
            sum[w - 1] = zero
            for (i = 1; i < w; i++) {
                carry = zero
                for (j = 0; j < w; j++) {
                    bit = gate_and(first + j, second + i)
                    old = sum[j]
                    sum[j] = gate_xor(gate_xor(old, bit), carry)
                    carry = gate_maj(old, bit, carry)
                }
                out[i] = sum[0]
                for (j = 0; j < w - 1; j++) sum[j] = sum[j + 1]
                sum[w - 1] = carry
            }
            for (j = 0; j < w; j++) out[w + j] = sum[j]
        }
        BEGIN {
            top = 2 * w + 1; zero = top; clause(-zero)
            product(1, w + 1, one); product(w + 1, 1, two)
            some = ""
            for (j = 0; j < 2 * w; j++) some = some " " gate_xor(one[j], two[j])
            clause(some)
            printf "p cnf %d %d\n%s", top, clauses, body
        }'
}
