The definitions that a value comes from. Notices, on standard error, are left out unless a case shows them.

  $ why() { units_why "$@" 2> /dev/null; }

The built-in definitions: a unit, a prefix with a unit, a plural, a plural with a prefix, and the same name twice.

  $ why mile
  \tDefinition: 5280 ft = 1609.344 m (esc)
  mile: unit, 5280 ft = 1609.344 m [builtin:55]
    ft: unit, 12 in = 0.3048 m [builtin:50]
      in: unit, 254|10000 m = 0.0254 m [builtin:48]
        m: unit, ! = 1 m [builtin:2]
  $ why km
  \tDefinition: 1000 m (esc)
  k-: prefix in km, kilo = 1000 [builtin:21]
    kilo-: prefix, 1000 = 1000 [builtin:12]
  m: unit in km, ! = 1 m [builtin:2]
  $ why miles
  \tDefinition: 1609.344 m (esc)
  mile: plural in miles, 5280 ft = 1609.344 m [builtin:55]
    ft: unit, 12 in = 0.3048 m [builtin:50]
      in: unit, 254|10000 m = 0.0254 m [builtin:48]
        m: unit, ! = 1 m [builtin:2]
  $ why 'kilometers'
  \tDefinition: 1000 m (esc)
  kilo-: prefix in kilometers, 1000 = 1000 [builtin:12]
  meter: unit in kilometers, m = 1 m [builtin:29]
    m: unit, ! = 1 m [builtin:2]
  $ why 'm m'
  \tDefinition: 1 m^2 (esc)
  m: unit, ! = 1 m [builtin:2]
  m: unit, see above

A conversion prints its reply, and then the tree of each side.

  $ why '2 lb' kg
  \t* 0.90718474 (esc)
  \t/ 1.1023113 (esc)
  lb: unit, 0.45359237 kg = 0.45359237 kg [builtin:56]
    kg: unit, ! = 1 kg [builtin:3]
  kg: unit, ! = 1 kg [builtin:3]
  $ why -d 4 '1 quart' liter
  \t* 0.9464 (esc)
  \t/ 1.057 (esc)
  quart: unit, 1|4 gallon = 0.0009464 m^3 [builtin:66]
    gallon: unit, 231 in^3 = 0.003785 m^3 [builtin:61]
      in: unit, 254|10000 m = 0.0254 m [builtin:48]
        m: unit, ! = 1 m [builtin:2]
  liter: unit, 1|1000 m^3 = 0.001 m^3 [builtin:45]
    m: unit, ! = 1 m [builtin:2]

Values are written in the format of the reply.

  $ why --exact inch
  \tDefinition: in = 127|5000 m (esc)
  inch: unit, in = 127|5000 m [builtin:49]
    in: unit, 254|10000 m = 127|5000 m [builtin:48]
      m: unit, ! = 1 m [builtin:2]
  $ why -d 3 lb
  \tDefinition: 0.45359237 kg = 0.454 kg (esc)
  lb: unit, 0.45359237 kg = 0.454 kg [builtin:56]
    kg: unit, ! = 1 kg [builtin:3]

A number uses no definitions, and neither does a text that is no expression.

  $ why 12
  \tDefinition: 12 (esc)
  $ why '2 +'
  syntax error at 3
  [1]
  $ why ''
  syntax error at 0
  [1]

The locale decides which of two lines is in force.

  $ why -l en_US gallon
  \tDefinition: 231 in^3 = 0.0037854118 m^3 (esc)
  gallon: unit, 231 in^3 = 0.0037854118 m^3 [builtin:61]
    in: unit, 254|10000 m = 0.0254 m [builtin:48]
      m: unit, ! = 1 m [builtin:2]
  $ why -l en_GB gallon
  \tDefinition: 4.54609 liter = 0.00454609 m^3 (esc)
  gallon: unit, 4.54609 liter = 0.00454609 m^3 [builtin:64]
    liter: unit, 1|1000 m^3 = 0.001 m^3 [builtin:45]
      m: unit, ! = 1 m [builtin:2]

Functions and their inverses. All parts of a function are listed, whichever is called. The line below the function shows
the argument and the tests of the call.

  $ why 'tempF(32)'
  \tDefinition: 273.15 K (esc)
  tempF(): function, (x) units=[1;K] domain=[-459.67,) range=[0,) (x+(-32)) degF + stdtemp ;      (tempF+(-stdtemp))/degF + 32 [builtin:72]
    called at 32; 32 is in the domain [-459.67,); 273.15 is in the range [0,)
    K: unit (result unit), ! = 1 K [builtin:6]
    degF: unit (forward), 5|9 K = 0.55555556 K [builtin:69]
      K: unit, see above
    stdtemp: unit (forward), 273.15 K = 273.15 K [builtin:70]
      K: unit, see above
    stdtemp: unit (inverse), see above
    degF: unit (inverse), see above
  $ why '~tempF(273.15 K)'
  \tDefinition: 32 (esc)
  tempF(): inverse function, (x) units=[1;K] domain=[-459.67,) range=[0,) (x+(-32)) degF + stdtemp ;      (tempF+(-stdtemp))/degF + 32 [builtin:72]
    its inverse is called at 273.15 K; 273.15 is in the range [0,); 32 is in the domain [-459.67,)
    K: unit (result unit), ! = 1 K [builtin:6]
    degF: unit (forward), 5|9 K = 0.55555556 K [builtin:69]
      K: unit, see above
    stdtemp: unit (forward), 273.15 K = 273.15 K [builtin:70]
      K: unit, see above
    stdtemp: unit (inverse), see above
    degF: unit (inverse), see above
  K: unit, see above
  $ why 'tempcelsius(20)'
  \tDefinition: 293.15 K (esc)
  tempcelsius(): function, () tempC [builtin:74]
    called at 20; 20 is in the domain [-273.15,); 293.15 is in the range [0,)
    tempC(): function (alias), (x) units=[1;K] domain=[-273.15,) range=[0,) x K + stdtemp ; (tempC +(-stdtemp))/K [builtin:71]
      K: unit (result unit), ! = 1 K [builtin:6]
      K: unit (forward), see above
      stdtemp: unit (forward), 273.15 K = 273.15 K [builtin:70]
        K: unit, see above
      stdtemp: unit (inverse), see above
      K: unit (inverse), see above

A table of points, and its inverse.

  $ why 'zincgauge(10)'
  \tDefinition: 0.000508 m (esc)
  zincgauge(): function, [in] 1 0.002, 10 0.02, 15 0.04,      19 0.06, 23 0.1 [builtin:75]
    called at 10; between the points 1 0.002 and 10 0.02
    in: unit (table unit), 254|10000 m = 0.0254 m [builtin:48]
      m: unit, ! = 1 m [builtin:2]
  $ why '~zincgauge(0.02 in)'
  \tDefinition: 10 (esc)
  zincgauge(): inverse function, [in] 1 0.002, 10 0.02, 15 0.04,      19 0.06, 23 0.1 [builtin:75]
    its inverse is called at 0.000508 m; between the points 1 0.002 and 10 0.02
    in: unit (table unit), 254|10000 m = 0.0254 m [builtin:48]
      m: unit, ! = 1 m [builtin:2]
  in: unit, see above

Calls within calls and within definitions, calls that fail a test, and one whose operand has no value.

  $ cat > calls.units <<'end'
  > m !
  > kg !
  > f(x) units=[m;kg] domain=(0,10] range=[1,5) x kg/m ; f m/kg
  > g() f
  > h(x) units=[1;1] domain=[0,1] range=[0,) x^2 ; h^(1|2)
  > t[m] 0 0 10 5, 20 0
  > two 2 f(2 m) + g(h(1) 4 m)
  > short 3 m
  > k- 1000
  > bad(x) domain=[0,1] x gone
  > end
  $ why -f calls.units two
  \tDefinition: 2 f(2 m) + g(h(1) 4 m) = 8 kg (esc)
  two: unit, 2 f(2 m) + g(h(1) 4 m) = 8 kg [calls.units:7]
    f(): function, (x) units=[m;kg] domain=(0,10] range=[1,5) x kg/m ; f m/kg [calls.units:3]
      called at 2 m; 2 is in the domain (0,10]; 2 is in the range [1,5)
      m: unit (argument unit), ! = 1 m [calls.units:1]
      kg: unit (result unit), ! = 1 kg [calls.units:2]
      kg: unit (forward), see above
      m: unit (forward), see above
      m: unit (inverse), see above
      kg: unit (inverse), see above
    m: unit, see above
    g(): function, () f [calls.units:4]
      called at 4 m; 4 is in the domain (0,10]; 4 is in the range [1,5)
      f(): function (alias), see above
    h(): function, (x) units=[1;1] domain=[0,1] range=[0,) x^2 ; h^(1|2) [calls.units:5]
      called at 1; 1 is in the domain [0,1]; 1 is in the range [0,)
    m: unit, see above
  $ why -f calls.units '~f(2 kg)'
  \tDefinition: 2 m (esc)
  f(): inverse function, (x) units=[m;kg] domain=(0,10] range=[1,5) x kg/m ; f m/kg [calls.units:3]
    its inverse is called at 2 kg; 2 is in the range [1,5); 2 is in the domain (0,10]
    m: unit (argument unit), ! = 1 m [calls.units:1]
    kg: unit (result unit), ! = 1 kg [calls.units:2]
    kg: unit (forward), see above
    m: unit (forward), see above
    m: unit (inverse), see above
    kg: unit (inverse), see above
  kg: unit, see above
  $ why -f calls.units 'g(0 m)'
  not in domain: f
  in g(0 m)
  g(): function, () f [calls.units:4]
    called at 0 m; 0 is not in the domain (0,10]
    f(): function (alias), (x) units=[m;kg] domain=(0,10] range=[1,5) x kg/m ; f m/kg [calls.units:3]
      m: unit (argument unit), ! = 1 m [calls.units:1]
      kg: unit (result unit), ! = 1 kg [calls.units:2]
      kg: unit (forward), see above
      m: unit (forward), see above
      m: unit (inverse), see above
      kg: unit (inverse), see above
  m: unit, see above
  [1]
  $ why -f calls.units 'f(8 m)'
  not in range: f
  in f(8 m)
  f(): function, (x) units=[m;kg] domain=(0,10] range=[1,5) x kg/m ; f m/kg [calls.units:3]
    called at 8 m; 8 is in the domain (0,10]; 8 is not in the range [1,5)
    m: unit (argument unit), ! = 1 m [calls.units:1]
    kg: unit (result unit), ! = 1 kg [calls.units:2]
    kg: unit (forward), see above
    m: unit (forward), see above
    m: unit (inverse), see above
    kg: unit (inverse), see above
  m: unit, see above
  [1]
  $ why -f calls.units '~f(6 kg)'
  not in range: f
  in ~f(6 kg)
  f(): inverse function, (x) units=[m;kg] domain=(0,10] range=[1,5) x kg/m ; f m/kg [calls.units:3]
    its inverse is called at 6 kg; 6 is not in the range [1,5)
    m: unit (argument unit), ! = 1 m [calls.units:1]
    kg: unit (result unit), ! = 1 kg [calls.units:2]
    kg: unit (forward), see above
    m: unit (forward), see above
    m: unit (inverse), see above
    kg: unit (inverse), see above
  kg: unit, see above
  [1]
  $ why -f calls.units '~h(4)'
  not in domain: h
  in ~h(4)
  h(): inverse function, (x) units=[1;1] domain=[0,1] range=[0,) x^2 ; h^(1|2) [calls.units:5]
    its inverse is called at 4; 4 is in the range [0,); 2 is not in the domain [0,1]
  [1]
  $ why -f calls.units 'f(2 kg)'
  wrong argument: f
  in f(2 kg)
  f(): function, (x) units=[m;kg] domain=(0,10] range=[1,5) x kg/m ; f m/kg [calls.units:3]
    called at 2 kg
    m: unit (argument unit), ! = 1 m [calls.units:1]
    kg: unit (result unit), ! = 1 kg [calls.units:2]
    kg: unit (forward), see above
    m: unit (forward), see above
    m: unit (inverse), see above
    kg: unit (inverse), see above
  kg: unit, see above
  [1]
  $ why -f calls.units 'h(m / 0)'
  division by zero
  in (1 m) / 0
  h(): function, (x) units=[1;1] domain=[0,1] range=[0,) x^2 ; h^(1|2) [calls.units:5]
  m: unit, ! = 1 m [calls.units:1]
  [1]
  $ why -f calls.units 't(3)'
  \tDefinition: 1.5 m (esc)
  t(): function, [m] 0 0 10 5, 20 0 [calls.units:6]
    called at 3; between the points 0 0 and 10 5
    m: unit (table unit), ! = 1 m [calls.units:1]
  $ why -f calls.units '~t(2 m)'
  \tDefinition: 4 (esc)
  t(): inverse function, [m] 0 0 10 5, 20 0 [calls.units:6]
    its inverse is called at 2 m; between the points 0 0 and 10 5
    m: unit (table unit), ! = 1 m [calls.units:1]
  m: unit, see above
  $ why -f calls.units 't(21)'
  outside table: t
  in t(21)
  t(): function, [m] 0 0 10 5, 20 0 [calls.units:6]
    called at 21
    m: unit (table unit), ! = 1 m [calls.units:1]
  [1]
  $ why -f calls.units 'kshort(2) + f(1 m)'
  sum of unlike units: 6000 m and 1 kg
  in (6000 m) + (1 kg)
  k-: prefix in kshort, 1000 = 1000 [calls.units:9]
  short: unit in kshort, 3 m = 3 m [calls.units:8]
    m: unit, ! = 1 m [calls.units:1]
  f(): function, (x) units=[m;kg] domain=(0,10] range=[1,5) x kg/m ; f m/kg [calls.units:3]
    called at 1 m; 1 is in the domain (0,10]; 1 is in the range [1,5)
    m: unit (argument unit), see above
    kg: unit (result unit), ! = 1 kg [calls.units:2]
    kg: unit (forward), see above
    m: unit (forward), see above
    m: unit (inverse), see above
    kg: unit (inverse), see above
  m: unit, see above
  [1]
  $ why -f calls.units 'bad(2)'
  unknown unit: gone in bad()
  bad(): function, (x) domain=[0,1] x gone [calls.units:10]
    gone: unknown unit
  [1]
  $ why -f calls.units --json 'g(2 m) t(15) m / kg'
  {"expression":"g(2 m) t(15) m / kg","reply":"\u0009Definition: 5 m^2","refused":false}
  {"word":"g","depth":0,"key":"g()","how":"function","text":"() f","file":"calls.units","line":4,"call":{"branch":"forward","operand":"2 m","domain":{"interval":"(0,10]","number":"2","inside":true},"range":{"interval":"[1,5)","number":"2","inside":true}}}
  {"word":"f","depth":1,"key":"f()","how":"function","part":"alias","text":"(x) units=[m;kg] domain=(0,10] range=[1,5) x kg/m ; f m/kg","file":"calls.units","line":3}
  {"word":"m","depth":2,"key":"m","how":"unit","part":"argument unit","text":"!","value":"1 m","file":"calls.units","line":1}
  {"word":"kg","depth":2,"key":"kg","how":"unit","part":"result unit","text":"!","value":"1 kg","file":"calls.units","line":2}
  {"word":"kg","depth":2,"key":"kg","how":"unit","part":"forward","above":true}
  {"word":"m","depth":2,"key":"m","how":"unit","part":"forward","above":true}
  {"word":"m","depth":2,"key":"m","how":"unit","part":"inverse","above":true}
  {"word":"kg","depth":2,"key":"kg","how":"unit","part":"inverse","above":true}
  {"word":"m","depth":0,"key":"m","how":"unit","above":true}
  {"word":"t","depth":0,"key":"t()","how":"function","text":"[m] 0 0 10 5, 20 0","file":"calls.units","line":6,"call":{"branch":"forward","operand":"15","segment":[{"x":"10","y":"5"},{"x":"20","y":"0"}]}}
  {"word":"m","depth":1,"key":"m","how":"unit","part":"table unit","above":true}
  {"word":"m","depth":0,"key":"m","how":"unit","above":true}
  {"word":"kg","depth":0,"key":"kg","how":"unit","above":true}
  $ why -f calls.units --json '~h(4)'
  {"expression":"~h(4)","reply":"not in domain: h","refused":true,"step":{"operator":"~h","operands":["4"]}}
  {"word":"h","depth":0,"key":"h()","how":"inverse function","text":"(x) units=[1;1] domain=[0,1] range=[0,) x^2 ; h^(1|2)","file":"calls.units","line":5,"call":{"branch":"inverse","operand":"4","range":{"interval":"[0,)","number":"4","inside":true},"domain":{"interval":"[0,1]","number":"2","inside":false}}}
  [1]

The places of replaced lines are shown, but not those of lines for another locale.

  $ cat > twice.units <<'end'
  > m !
  > s !
  > ell 1 m
  > !locale en_GB
  > ell 1.2 m
  > !endlocale
  > ell 45 in
  > in 0.0254 m
  > ell 1.143 m # the last one
  > end
  $ why -f twice.units ell
  \tDefinition: 1.143 m = 1.143 m (esc)
  ell: unit, 1.143 m = 1.143 m [twice.units:9; replaces twice.units:3, twice.units:7]
    m: unit, ! = 1 m [twice.units:1]
  $ why -f twice.units -l en_GB ell
  \tDefinition: 1.143 m = 1.143 m (esc)
  ell: unit, 1.143 m = 1.143 m [twice.units:9; replaces twice.units:3, twice.units:5, twice.units:7]
    m: unit, ! = 1 m [twice.units:1]

An environment variable decides too.

  $ cat > system.units <<'end'
  > m !
  > !var SYSTEM old older
  > span 9 m
  > !endvar
  > !varnot SYSTEM old older
  > span 3 m
  > !endvar
  > end
  $ why -f system.units span
  \tDefinition: 3 m = 3 m (esc)
  span: unit, 3 m = 3 m [system.units:6]
    m: unit, ! = 1 m [system.units:1]
  $ SYSTEM=old units_why -f system.units span
  \tDefinition: 9 m = 9 m (esc)
  span: unit, 9 m = 9 m [system.units:3]
    m: unit, ! = 1 m [system.units:1]

Four files in nested folders, each included by the one before. The lines after an include are in its includer again.

  $ mkdir -p a/b/c
  $ printf 'm !\n!include a/one.units\ntop 2 one\n' > top.units
  $ printf '# a comment\n!include b/two.units\none 3 two\n' > a/one.units
  $ printf '!locale en_US\n!include c/three.units\ntwo 5 three' > a/b/two.units
  $ printf '\n\n  three 7 \\\n  m\n' > a/b/c/three.units
  $ why -f top.units top
  \tDefinition: 2 one = 210 m (esc)
  top: unit, 2 one = 210 m [top.units:3]
    one: unit, 3 two = 105 m [a/one.units:3]
      two: unit, 5 three = 35 m [a/b/two.units:3]
        three: unit, 7    m = 7 m [a/b/c/three.units:3]
          m: unit, ! = 1 m [top.units:1]
  $ units_why -f top.units one 2>&1 > /dev/null
  a/b/two.units:1: unclosed block

A file that is included twice has its lines twice, and the last ones are in force.

  $ printf '!include a/b/c/three.units\n!include a/b/c/three.units\nm !\n' > again.units
  $ why -f again.units three
  \tDefinition: 7    m = 7 m (esc)
  three: unit, 7    m = 7 m [a/b/c/three.units:3; replaces a/b/c/three.units:3]
    m: unit, ! = 1 m [again.units:3]

Faults, each at its place in the tree: an unknown word, a refused function, a cycle, and a step without a value.

  $ cat > faults.units <<'end'
  > m !
  > kg !
  > s !
  > unknown 2 gap
  > gap 3 missing m
  > refused 2 sin(1) m
  > ring 2 bead
  > bead 3 hoop
  > hoop m ring
  > self 2 self
  > sum m far
  > far 2 near
  > near 3 m + kg
  > huge 1e30 m vast
  > vast 1e30 s
  > zero 1 / (m - m)
  > root sqrt(2) m
  > halves m^(kg)
  > f(x) units=[1;m] domain=[0,10] x m ; f/m
  > outside f(11)
  > open- 2 m
  > openpre- 2 nowhere
  > end
  $ why -f faults.units unknown
  unknown unit: missing in gap
  unknown: unit, 2 gap ! see below [faults.units:4]
    gap: unit, 3 missing m ! see below [faults.units:5]
      missing: unknown unit
      m: unit, ! = 1 m [faults.units:1]
  [1]
  $ why -f faults.units '3 refused'
  refused function: sin in refused
  refused: unit, 2 sin(1) m ! see below [faults.units:6]
    sin: refused function
    m: unit, ! = 1 m [faults.units:1]
  [1]
  $ why -f faults.units ring
  cycle: ring -> bead -> hoop -> ring
  ring: unit, 2 bead ! see below [faults.units:7]
    bead: unit, 3 hoop ! see below [faults.units:8]
      hoop: unit, m ring ! see below [faults.units:9]
        m: unit, ! = 1 m [faults.units:1]
        ring: unit, a cycle: this definition is above
  [1]
  $ why -f faults.units self
  cycle: self -> self
  self: unit, 2 self ! see below [faults.units:10]
    self: unit, a cycle: this definition is above
  [1]
  $ why -f faults.units sum
  sum of unlike units: 3 m and 1 kg
  sum: unit, m far ! see below [faults.units:11]
    m: unit, ! = 1 m [faults.units:1]
    far: unit, 2 near ! see below [faults.units:12]
      near: unit, 3 m + kg ! sum of unlike units: 3 m and 1 kg in (3 m) + (1 kg) [faults.units:13]
        m: unit, see above
        kg: unit, ! = 1 kg [faults.units:2]
  [1]
  $ why -f faults.units 'huge'
  overflow
  huge: unit, 1e30 m vast ! overflow in (1e+30 m) * (1e+30 s) [faults.units:14]
    m: unit, ! = 1 m [faults.units:1]
    vast: unit, 1e30 s = 1e+30 s [faults.units:15]
      s: unit, ! = 1 s [faults.units:3]
  [1]
  $ why -f faults.units zero
  division by zero
  zero: unit, 1 / (m - m) ! division by zero in 1 / (0 m) [faults.units:16]
    m: unit, ! = 1 m [faults.units:1]
    m: unit, see above
  [1]
  $ why -f faults.units root
  no exact root
  root: unit, sqrt(2) m ! no exact root in sqrt(2) [faults.units:17]
    m: unit, ! = 1 m [faults.units:1]
  [1]
  $ why -f faults.units halves
  exponent is not a number
  halves: unit, m^(kg) ! exponent is not a number in (1 m) ^ (1 kg) [faults.units:18]
    m: unit, ! = 1 m [faults.units:1]
    kg: unit, ! = 1 kg [faults.units:2]
  [1]
  $ why -f faults.units outside
  not in domain: f
  outside: unit, f(11) ! not in domain: f in f(11) [faults.units:20]
    f(): function, (x) units=[1;m] domain=[0,10] x m ; f/m [faults.units:19]
      called at 11; 11 is not in the domain [0,10]
      m: unit (result unit), ! = 1 m [faults.units:1]
      m: unit (forward), see above
      m: unit (inverse), see above
  [1]
  $ why -f faults.units 'openm'
  \tDefinition: 2 m^2 (esc)
  open-: prefix in openm, 2 m = 2 m [faults.units:21]
    m: unit, ! = 1 m [faults.units:1]
  m: unit in openm, see above
  $ why -f faults.units 'openprem'
  unknown unit: nowhere in openpre-
  openpre-: prefix in openprem, 2 nowhere ! see below [faults.units:22]
    nowhere: unknown unit
  m: unit in openprem, ! = 1 m [faults.units:1]
  [1]
  $ why -f faults.units f
  argument needed: f
  f(): function, (x) units=[1;m] domain=[0,10] x m ; f/m [faults.units:19]
    m: unit (result unit), ! = 1 m [faults.units:1]
    m: unit (forward), see above
    m: unit (inverse), see above
  [1]
  $ why -f faults.units 'm kg' s
  conformability error
  \t1 kg m (esc)
  \t1 s (esc)
  m: unit, ! = 1 m [faults.units:1]
  kg: unit, ! = 1 kg [faults.units:2]
  s: unit, ! = 1 s [faults.units:3]
  [1]

The step without a value may be in the expression itself. Its operands are shown as values.

  $ why -f faults.units '2 1e30 m vast'
  overflow
  in (2e+30 m) * (1e+30 s)
  m: unit, ! = 1 m [faults.units:1]
  vast: unit, 1e30 s = 1e+30 s [faults.units:15]
    s: unit, ! = 1 s [faults.units:3]
  [1]
  $ why -f faults.units 'm / (s - s)'
  division by zero
  in (1 m) / (0 s)
  m: unit, ! = 1 m [faults.units:1]
  s: unit, ! = 1 s [faults.units:3]
  s: unit, see above
  [1]
  $ why -f faults.units '2 m - kg (3 m)'
  sum of unlike units: 2 m and 3 kg m
  in (2 m) - (3 kg m)
  m: unit, ! = 1 m [faults.units:1]
  kg: unit, ! = 1 kg [faults.units:2]
  m: unit, see above
  [1]
  $ why -f faults.units '4 (m s)^(2 m)'
  exponent is not a number
  in (1 m s) ^ (2 m)
  m: unit, ! = 1 m [faults.units:1]
  s: unit, ! = 1 s [faults.units:3]
  m: unit, see above
  [1]
  $ why -f faults.units 'cuberoot(2 m^3)'
  no exact root
  in cuberoot(2 m^3)
  m: unit, ! = 1 m [faults.units:1]
  [1]
  $ why -f faults.units '1|0'
  division by zero
  in 1 / 0
  [1]
  $ why -f faults.units '2 f(-1)'
  not in domain: f
  in f(-1)
  f(): function, (x) units=[1;m] domain=[0,10] x m ; f/m [faults.units:19]
    called at -1; -1 is not in the domain [0,10]
    m: unit (result unit), ! = 1 m [faults.units:1]
    m: unit (forward), see above
    m: unit (inverse), see above
  [1]
  $ why -f faults.units '3 m + 2 m' '~f(11 m)'
  not in domain: f
  in ~f(11 m)
  m: unit, ! = 1 m [faults.units:1]
  m: unit, see above
  f(): inverse function, (x) units=[1;m] domain=[0,10] x m ; f/m [faults.units:19]
    its inverse is called at 11 m; 11 is not in the domain [0,10]
    m: unit (result unit), ! = 1 m [faults.units:1]
    m: unit (forward), see above
    m: unit (inverse), see above
  m: unit, see above
  [1]
  $ why -f faults.units --json 'm + (s s - 1 kg)'
  {"expression":"m + (s s - 1 kg)","reply":"sum of unlike units: 1 s^2 and 1 kg","refused":true,"step":{"operator":"-","operands":["1 s^2","1 kg"]}}
  {"word":"m","depth":0,"key":"m","how":"unit","text":"!","value":"1 m","file":"faults.units","line":1}
  {"word":"s","depth":0,"key":"s","how":"unit","text":"!","value":"1 s","file":"faults.units","line":3}
  {"word":"s","depth":0,"key":"s","how":"unit","above":true}
  {"word":"kg","depth":0,"key":"kg","how":"unit","text":"!","value":"1 kg","file":"faults.units","line":2}
  [1]
  $ why -f faults.units --json root
  {"expression":"root","reply":"no exact root","refused":true}
  {"word":"root","depth":0,"key":"root","how":"unit","text":"sqrt(2) m","fault":"no exact root","step":{"operator":"sqrt","operands":["2"]},"file":"faults.units","line":17}
  {"word":"m","depth":1,"key":"m","how":"unit","text":"!","value":"1 m","file":"faults.units","line":1}
  [1]

In JSON, the first object is the reply, and each of the others is a row.

  $ why --json km
  {"expression":"km","reply":"\u0009Definition: 1000 m","refused":false}
  {"word":"km","depth":0,"key":"k-","how":"prefix","text":"kilo","value":"1000","file":"builtin","line":21}
  {"word":"kilo","depth":1,"key":"kilo-","how":"prefix","text":"1000","value":"1000","file":"builtin","line":12}
  {"word":"km","depth":0,"key":"m","how":"unit","text":"!","value":"1 m","file":"builtin","line":2}
  $ why -f twice.units --json --exact ell
  {"expression":"ell","reply":"\u0009Definition: 1.143 m = 1143|1000 m","refused":false}
  {"word":"ell","depth":0,"key":"ell","how":"unit","text":"1.143 m","value":"1143|1000 m","file":"twice.units","line":9,"replaces":[{"deck_line":2,"file":"twice.units","line":3},{"deck_line":6,"file":"twice.units","line":7}]}
  {"word":"m","depth":1,"key":"m","how":"unit","text":"!","value":"1 m","file":"twice.units","line":1}
  $ why -f faults.units --json sum
  {"expression":"sum","reply":"sum of unlike units: 3 m and 1 kg","refused":true}
  {"word":"sum","depth":0,"key":"sum","how":"unit","text":"m far","fault_below":true,"file":"faults.units","line":11}
  {"word":"m","depth":1,"key":"m","how":"unit","text":"!","value":"1 m","file":"faults.units","line":1}
  {"word":"far","depth":1,"key":"far","how":"unit","text":"2 near","fault_below":true,"file":"faults.units","line":12}
  {"word":"near","depth":2,"key":"near","how":"unit","text":"3 m + kg","fault":"sum of unlike units: 3 m and 1 kg","step":{"operator":"+","operands":["3 m","1 kg"]},"file":"faults.units","line":13}
  {"word":"m","depth":3,"key":"m","how":"unit","above":true}
  {"word":"kg","depth":3,"key":"kg","how":"unit","text":"!","value":"1 kg","file":"faults.units","line":2}
  [1]
  $ why -f faults.units --json ring
  {"expression":"ring","reply":"cycle: ring -> bead -> hoop -> ring","refused":true}
  {"word":"ring","depth":0,"key":"ring","how":"unit","text":"2 bead","fault_below":true,"file":"faults.units","line":7}
  {"word":"bead","depth":1,"key":"bead","how":"unit","text":"3 hoop","fault_below":true,"file":"faults.units","line":8}
  {"word":"hoop","depth":2,"key":"hoop","how":"unit","text":"m ring","fault_below":true,"file":"faults.units","line":9}
  {"word":"m","depth":3,"key":"m","how":"unit","text":"!","value":"1 m","file":"faults.units","line":1}
  {"word":"ring","depth":3,"key":"ring","how":"unit","fault":"cycle"}
  [1]
  $ why -f faults.units --json unknown m
  {"expression":"unknown","unit":"m","reply":"unknown unit: missing in gap","refused":true}
  {"word":"unknown","depth":0,"key":"unknown","how":"unit","text":"2 gap","fault_below":true,"file":"faults.units","line":4}
  {"word":"gap","depth":1,"key":"gap","how":"unit","text":"3 missing m","fault_below":true,"file":"faults.units","line":5}
  {"word":"missing","depth":2,"fault":"unknown unit"}
  {"word":"m","depth":2,"key":"m","how":"unit","text":"!","value":"1 m","file":"faults.units","line":1}
  {"word":"m","depth":0,"key":"m","how":"unit","text":"!","value":"1 m","file":"faults.units","line":1}
  [1]
  $ printf 'caf\303\251 ! # "quoted"\n\\b 2 caf\303\251\n' > 'odd "name\.units'
  $ why -f 'odd "name\.units' --json '\b'
  {"expression":"\\\\b","reply":"\\u0009Definition: 2 caf\xc3\xa9 = 2 caf\xc3\xa9","refused":false} (esc)
  {"word":"\\\\b","depth":0,"key":"\\\\b","how":"unit","text":"2 caf\xc3\xa9","value":"2 caf\xc3\xa9","file":"odd \\"name\\\\.units","line":2} (esc)
  {"word":"caf\xc3\xa9","depth":1,"key":"caf\xc3\xa9","how":"unit","text":"!","value":"1 caf\xc3\xa9","file":"odd \\"name\\\\.units","line":1} (esc)

A text that is not UTF-8 has a second member with its bytes. Control characters and marks of direction are escaped.

  $ printf 'm !\n\377x 3 m + s\ny 2 \377x\ns !\nz \342\200\256w\n\342\200\256w 4 m\303\n' > bytes.units
  $ why -f bytes.units --json y
  {"expression":"y","reply":"sum of unlike units: 3 m and 1 s","refused":true}
  {"word":"y","depth":0,"key":"y","how":"unit","text":"2 \\ufffdx","text_hex":"3220ff78","fault_below":true,"file":"bytes.units","line":3} (esc)
  {"word":"\\ufffdx","word_hex":"ff78","depth":1,"key":"\\ufffdx","key_hex":"ff78","how":"unit","text":"3 m + s","fault":"sum of unlike units: 3 m and 1 s","step":{"operator":"+","operands":["3 m","1 s"]},"file":"bytes.units","line":2} (esc)
  {"word":"m","depth":2,"key":"m","how":"unit","text":"!","value":"1 m","file":"bytes.units","line":1}
  {"word":"s","depth":2,"key":"s","how":"unit","text":"!","value":"1 s","file":"bytes.units","line":4}
  [1]
  $ why -f bytes.units --json z | tail -n 2
  {"word":"\\u202ew","depth":1,"key":"\\u202ew","how":"unit","text":"4 m\\ufffd","text_hex":"34206dc3","fault_below":true,"file":"bytes.units","line":6} (esc)
  {"word":"m\\ufffd","word_hex":"6dc3","depth":2,"fault":"unknown unit"} (esc)
  $ printf 's !\n\377 !\nt 3 \377 + s\n' > operands.units
  $ why -f operands.units --json t | head -n 2 | tail -n 1
  {"word":"t","depth":0,"key":"t","how":"unit","text":"3 \\ufffd + s","text_hex":"3320ff202b2073","fault":"sum of unlike units: 3 \\ufffd and 1 s","fault_hex":"73756d206f6620756e6c696b6520756e6974733a203320ff20616e6420312073","step":{"operator":"+","operands":["3 \\ufffd","1 s"],"operands_hex":["3320ff","312073"]},"file":"operands.units","line":3} (esc)

A step is that of the side whose fault the reply states: of the unit only if the expression has a value.

  $ printf 'm !\ns !\nkg !\n' > sides.units
  $ why -f sides.units nosuch 1/0
  unknown unit: nosuch
  nosuch: unknown unit
  [1]
  $ why -f sides.units 'm (s' 'm + s'
  syntax error at 4
  m: unit, ! = 1 m [sides.units:1]
  s: unit, ! = 1 s [sides.units:2]
  [1]
  $ why -f sides.units 'm + s' 'm + kg' | head -n 2
  sum of unlike units: 1 m and 1 s
  in (1 m) + (1 s)
  $ why -f sides.units m 'm + kg' | head -n 2
  sum of unlike units: 1 m and 1 kg
  in (1 m) + (1 kg)
  $ why -f sides.units --json 'm + s' 'm + kg' | head -n 1
  {"expression":"m + s","unit":"m + kg","reply":"sum of unlike units: 1 m and 1 s","refused":true,"step":{"operator":"+","operands":["1 m","1 s"]}}
  $ why -f sides.units --json m 'm + kg' | head -n 1
  {"expression":"m","unit":"m + kg","reply":"sum of unlike units: 1 m and 1 kg","refused":true,"step":{"operator":"+","operands":["1 m","1 kg"]}}

A fault is below only if the evaluation meets it before a step of the definition itself.

  $ printf 'm !\nbad 1e30 m\nfar 1e30 bad bad\nbefore (1/0) far\nafter far (1/0)\n' > order.units
  $ why -f order.units before
  division by zero
  before: unit, (1/0) far ! division by zero in 1 / 0 [order.units:4]
    far: unit, 1e30 bad bad ! overflow in 1e+30 * (1e+30 m) [order.units:3]
      bad: unit, 1e30 m = 1e+30 m [order.units:2]
        m: unit, ! = 1 m [order.units:1]
      bad: unit, see above
  [1]
  $ why -f order.units after | head -n 3
  overflow
  after: unit, far (1/0) ! see below [order.units:5]
    far: unit, 1e30 bad bad ! overflow in 1e+30 * (1e+30 m) [order.units:3]
  $ why -f order.units '(1/0) far' | head -n 2
  division by zero
  in 1 / 0

Files that are read in place of others. Names are compared without `.`, `//` and `DIR/..`; the last `=` ends a name.

  $ mkdir sub
  $ printf 'm !\n!include sub/../own.units\n!include sub//./part.units\n' > whole.units
  $ printf 'x 2 m\n' > own.units
  $ printf 'x 3 m\n' > unsaved
  $ printf 'part 4 x\n!include ../a=b.units\n' > other
  $ why -f whole.units --overlay ./own.units=unsaved --overlay=sub/part.units=other --overlay a=b.units=unsaved part
  \tDefinition: 4 x = 12 m (esc)
  part: unit, 4 x = 12 m [sub//./part.units:1]
    x: unit, 3 m = 3 m [sub//./../a=b.units:1; replaces sub/../own.units:1]
      m: unit, ! = 1 m [whole.units:1]
  $ why -f whole.units x
  \tDefinition: 2 m = 2 m (esc)
  x: unit, 2 m = 2 m [sub/../own.units:1]
    m: unit, ! = 1 m [whole.units:1]
  $ units_why -f ./sub/../whole.units --overlay "$PWD/own.units=unsaved" --overlay whole.units=absent m
  units-why: no file: ./sub/../whole.units
  [3]
  $ printf 'm !\ny 2 nosuch\n' > unsaved
  $ units_why --lint -f whole.units --overlay whole.units=unsaved
  whole.units:2:5: y: unknown unit: nosuch in y
  [1]
  $ for overlay in a =a a= = ''; do units_why --lint --overlay "$overlay"; done 2>&1 | uniq -c | sed 's/^ *//'
  5 units-why: usage: units-why [options] EXPRESSION [UNIT], or units-why --lint [options]
  $ units_why --lint --overlay own.units=a --overlay sub/../own.units=b
  units-why: usage: units-why [options] EXPRESSION [UNIT], or units-why --lint [options]
  [2]

A row that is more than 20 deep begins with its depth.

  $ awk 'BEGIN { print "a !"; w = "a"; for (i = 0; i < 25; i++) { print w "a " w; w = w "a" } }' > deep.units
  $ why -f deep.units aaaaaaaaaaaaaaaaaaaaaaaaaa | tail -7
                                        aaaaaaa: unit, aaaaaa = 1 a [deep.units:7]
                                          aaaaaa: unit, aaaaa = 1 a [deep.units:6]
                                          (21) aaaaa: unit, aaaa = 1 a [deep.units:5]
                                          (22) aaaa: unit, aaa = 1 a [deep.units:4]
                                          (23) aaa: unit, aa = 1 a [deep.units:3]
                                          (24) aa: unit, a = 1 a [deep.units:2]
                                          (25) a: unit, ! = 1 a [deep.units:1]

A file that cannot be read twice. If it includes no file, its lines have places; otherwise they have none.

  $ printf 'm !\nyd 0.9144 m\n' | units_why -f /dev/stdin yd
  \tDefinition: 0.9144 m = 0.9144 m (esc)
  yd: unit, 0.9144 m = 0.9144 m [/dev/stdin:2]
    m: unit, ! = 1 m [/dev/stdin:1]
  $ printf '# one metre\nm !\n' > metre.units
  $ printf '!include %s/metre.units\nyd 0.9144 m\n' "$PWD" | units_why -f /dev/stdin yd
  units-why: a file changed while it was read, so no line has a place
  \tDefinition: 0.9144 m = 0.9144 m (esc)
  yd: unit, 0.9144 m = 0.9144 m [?]
    m: unit, ! = 1 m [?]

The version. The other words are not looked at, and no file is opened.

  $ units_why --version
  units-why *.*.* (glob)
  $ units_why -V --lint -f absent.units -d 37 m
  units-why *.*.* (glob)
  $ units_why --version > /dev/full
  [5]
  $ units_why --version --nothing
  units-why: usage: units-why [options] EXPRESSION [UNIT], or units-why --lint [options]
  [2]
  $ units_why --version -V
  units-why: usage: units-why [options] EXPRESSION [UNIT], or units-why --lint [options]
  [2]

The built-in definitions by name, which no file may be named beside.

  $ why --built-in inch | head -n 2
  \tDefinition: in = 0.0254 m (esc)
  inch: unit, in = 0.0254 m [builtin:49]
  $ units_why --built-in -f whole.units m
  units-why: usage: units-why [options] EXPRESSION [UNIT], or units-why --lint [options]
  [2]

The command of bin/ reads the words and the definitions of qunits, unless an option names other definitions.

  $ places() { sed -n 's/.*\[\(.*\):.*/\1/p' | sed 's#.*/\(share/units/\)#\1#' | uniq; }
  $ units-why 60 mph | head -n 1
  \tDefinition: 26.8224 m / s (esc)
  $ units-why 60 mph | places
  share/units/speed.units
  share/units/length.units
  share/units/si.units
  $ mkdir -p .config/units
  $ printf 'm !\nmile 1600 m\nmile 1700 m\n' > .config/units/my.units
  $ units-why 2 mile
  \tDefinition: 3400 m (esc)
  mile: unit, 1700 m = 1700 m ?*/.config/units/my.units:3; replaces */.config/units/my.units:2? (glob)
    m: unit, ! = 1 m ?*/.config/units/my.units:1? (glob)
  $ units-why --lint
  */.config/units/my.units:2:1: mile: replaced by * (glob)
  [1]
  $ XDG_CONFIG_HOME=elsewhere units-why -d 3 2 yards to ft | places
  share/units/length.units
  share/units/si.units
  share/units/length.units
  share/units/si.units
  $ units-why --built-in 2 mile | head -n 1
  conformability error
  $ units-why --built-in mile | places
  builtin
  $ for word in -fmetre.units --file=metre.units '-f metre.units' '--file metre.units'; do
  >   units-why $word m | places
  > done | uniq -c | sed 's/^ *//'
  4 metre.units
  $ units-why --version
  units-why *.*.* (glob)
  $ units-why -5 mile | head -n 1
  \tDefinition: -8500 m (esc)
  $ for words in '' '-tf metre.units m' '-q m' '--new' '--names' '-f metre.units --built-in m'; do
  >   timeout 20 units-why $words
  > done 2>&1 | uniq -c | sed 's/^ *//'
  6 units-why: usage: units-why [options] EXPRESSION [UNIT], or units-why --lint [options]
  $ units-why --captures --lint
  */.config/units/my.units:2:1: mile: replaced by * (glob)
  [1]
  $ rm -r .config

Refused arguments, and files that cannot be read or written.

  $ units_why
  units-why: usage: units-why [options] EXPRESSION [UNIT], or units-why --lint [options]
  [2]
  $ units_why --exact -d 3 m
  units-why: usage: units-why [options] EXPRESSION [UNIT], or units-why --lint [options]
  [2]
  $ units_why -d 37 m
  units-why: usage: units-why [options] EXPRESSION [UNIT], or units-why --lint [options]
  [2]
  $ units_why --lint m
  units-why: usage: units-why [options] EXPRESSION [UNIT], or units-why --lint [options]
  [2]
  $ units_why m ft yd
  units-why: usage: units-why [options] EXPRESSION [UNIT], or units-why --lint [options]
  [2]
  $ units_why --help
  units-why: usage: units-why [options] EXPRESSION [UNIT], or units-why --lint [options]
  [2]
  $ units_why -f absent.units m
  units-why: no file: absent.units
  [3]
  $ units_why -f . m
  [4]
  $ units_why m > /dev/full
  [5]
