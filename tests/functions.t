Functions with their inverses, tables of points and lists of units, with the built-in definitions. Lines on standard
error are marked with `err: `.

  $ units() { command units "$@" 2> err; status=$?; sed 's/^/err: /' err; return $status; }

A function in FROM is applied; as TO, its inverse is applied. Absolute zero is -459.67 degrees Fahrenheit.

  $ units "tempF(45)" tempC
  \t7.2222222 (esc)
  $ units "tempcelsius(100)" tempF
  \t212 (esc)
  $ units "~tempC(300 K)"
  \tDefinition: 26.85 (esc)
  $ units "tempF(-460)" K
  not in domain: tempF
  [1]
  $ units "tempF(-459.67)" K
  \t* 0 (esc)
  \t/ inf (esc)
  $ units -t "tempF(45)" tempC
  7.2222222
  $ units -v "tempF(45)" tempC
  \ttempF(45) = tempC(7.2222222) (esc)

A function without an inverse, and an argument that does not have the unit that the function requires.

  $ cat > squares.units <<END
  > m !
  > sq(x) units=[m;m^2] domain=[0,) x^2
  > END
  $ units -f squares.units "9 m^2" sq
  no inverse: sq
  [1]
  $ units -f squares.units "sq(3)"
  wrong argument: sq
  [1]

Nested calls, up to the limit and one deeper.

  $ { echo "f_1(x) x"; for i in $(seq 2 17); do echo "f_$i(x) f_$((i - 1))(x)"; done; } > calls.units
  $ units -f calls.units "f_16(1)"
  \tDefinition: 1 (esc)
  $ units -f calls.units "f_17(1)"
  calls too deep: f_17
  [1]

Functions that call one another up to the limit, each with an expression nested up to the limit, on a stack of the usual
size: roots, products with the argument, calls, inverses and signs, each in a sum, in a product, next to a number and
with an exponent. Each has the value 1 for the argument 1. An expression that is nested deeper is refused.

  $ deep() { echo 'v_1(x) x ; v_1'; for i in $(seq 2 16); do printf "v_$i(x) "; printf "$1%.0s" $(seq $2); printf "v_$((i - 1))(x)"; printf ')^1%.0s' $(seq $2); echo; done; }
  $ usual() { (ulimit -s 8192; units "$@"); }
  $ deep '0+1*1 sqrt(' 63 > roots.units
  $ usual -f roots.units "v_16(1)"
  \tDefinition: 1 (esc)
  $ usual -f roots.units "$(printf '0+1*1 sqrt(%.0s' $(seq 63))v_16(1)$(printf ')^1%.0s' $(seq 63))"
  \tDefinition: 1 (esc)
  $ deep '0+1*1 x(' 63 > products.units
  $ usual -f products.units "v_16(1)"
  \tDefinition: 1 (esc)
  $ deep '0+1*1 v_1(' 63 > calls.units
  $ usual -f calls.units "v_16(1)"
  \tDefinition: 1 (esc)
  $ deep '0+1*1 ~v_1(' 63 > inverses.units
  $ usual -f inverses.units "v_16(1)"
  \tDefinition: 1 (esc)
  $ deep '0-1*-1 sqrt(' 31 > signs.units
  $ usual -f signs.units "v_16(1)"
  \tDefinition: 1 (esc)
  $ deep '0+1*1 sqrt(' 64 > deeper.units
  $ usual -f deeper.units "v_2(1)" 2>&1 | head -2
  unknown unit: v_2
  err: deeper.units:2: nested too deep

Tables of points.

  $ units "zincgauge(12)" in
  \t* 0.028 (esc)
  \t/ 35.714286 (esc)
  $ units "0.028 in" zincgauge
  \t12 (esc)
  $ units "zincgauge(24)" in
  outside table: zincgauge
  [1]
  $ printf 'm !\nt[m] 1 5, 2 5, 3 4\n' > flat.units
  $ units -f flat.units "5 m" t
  \t1 (esc)

Lists of units, by their parts and by name.

  $ units "1.4 m" "ft;in"
  \t4 ft + 7.1181102 in (esc)
  $ units -t "1.4 m" "ft;in"
  4;7.1181102
  $ units -v "1.4 m" "ft;in"
  \t1.4 m = 4 ft + 7.1181102 in (esc)
  $ units "1.4 m" ftin
  \t4 ft + 7.1181102 in (esc)
  $ units "1.5 hr" hms
  \t1 hr + 30 min + 0 sec (esc)
  $ units "(-1.5) hr" hms
  \t-1 hr + -30 min + 0 sec (esc)
  $ units -r "1.99 ft" "ft;in"
  \t2 ft + 0 in (esc)
  $ units "1 m" "ft;s"
  conformability error
  \t1 m (esc)
  \t1 s (esc)
  [1]
  $ units "1 m" "ft;-1 in"
  list unit not positive: 2
  [1]
