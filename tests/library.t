Everyday queries over the library of definitions. tools/checks/library_queries.py writes this file and computes the
answers from the definitions of the units. LIBRARY is the path of share/units/standard.units.

  $ over() { units -1 -f "$LIBRARY" "$@"; }
  $ over "3 acres" hectares
  \t* 1.2140569 (esc)
  $ over "5 ft + 11 in" cm
  \t* 180.34 (esc)
  $ over "6 ft + 2 in" cm
  \t* 187.96 (esc)
  $ over "1 mile" km
  \t* 1.609344 (esc)
  $ over "26.2 miles" km
  \t* 42.164813 (esc)
  $ over "10 km" miles
  \t* 6.2137119 (esc)
  $ over "1 in" cm
  \t* 2.54 (esc)
  $ over "2.54 cm" in
  \t* 1 (esc)
  $ over "1|2 inch" mm
  \t* 12.7 (esc)
  $ over "½ inch" mm
  \t* 12.7 (esc)
  $ over "(5/8) in" mm
  \t* 15.875 (esc)
  $ over "6 feet" m
  \t* 1.8288 (esc)
  $ over "100 yards" m
  \t* 91.44 (esc)
  $ over "1 nautical mile" km
  \t* 1.852 (esc)
  $ over "1 nmi" m
  \t* 1852 (esc)
  $ over "1 nautical_mile" miles
  \t* 1.1507794 (esc)
  $ over "1 furlong" m
  \t* 201.168 (esc)
  $ over "1 chain" m
  \t* 20.1168 (esc)
  $ over "1 fathom" m
  \t* 1.8288 (esc)
  $ over "1 league" km
  \t* 4.828032 (esc)
  $ over "1 mil" µm
  \t* 25.4 (esc)
  $ over "1 thou" mm
  \t* 0.0254 (esc)
  $ over "5 µm" inch
  \t* 0.00019685039 (esc)
  $ over "10 Å" nm
  \t* 1 (esc)
  $ over "1 marathon" miles
  \t* 26.218757 (esc)
  $ over "1 au" km
  \t* 1.4959787e+08 (esc)
  $ over "1 AU" km
  \t* 1.4959787e+08 (esc)
  $ over "1 lightyear" km
  \t* 9.4607305e+12 (esc)
  $ over "1 light_year" km
  \t* 9.4607305e+12 (esc)
  $ over "1 light year" km
  \t* 9.4607305e+12 (esc)
  $ over "4.2465 ly" pc
  \t* 1.3019828 (esc)
  $ over "1 parsec" ly
  \t* 3.2615638 (esc)
  $ over "1 parsec" m
  \t* 3.0856776e+16 (esc)
  $ over "1 light_second" km
  \t* 299792.46 (esc)
  $ over "12 hands" cm
  \t* 121.92 (esc)
  $ over "1 smoot" ft
  \t* 5.5833333 (esc)
  $ over "1 survey_foot" m
  \t* 0.30480061 (esc)
  $ over "1 point" mm
  \t* 0.35277778 (esc)
  $ over "12 point" mm
  \t* 4.2333333 (esc)
  $ over "1 pica" points
  \t* 12 (esc)
  $ over "96 px" cm
  \t* 2.54 (esc)
  $ over "300 dpi" 1/mm
  \t* 11.811024 (esc)
  $ over "1.75 m" "ft;in"
  \t5 ft + 8.8976378 in (esc)
  $ over "1.4 m" ftin
  \t4 ft + 7.1181102 in (esc)
  $ over "1.85 m" "ft;in"
  \t6 ft + 0.83464567 in (esc)
  $ over "awg(12)" mm
  \t* 2.0525254 (esc)
  $ over "awg(16)" mm
  \t* 1.2908459 (esc)
  $ over "awg(0)" inch
  \t* 0.32486074 (esc)
  $ over "awg(36)" mm
  \t* 0.127 (esc)
  $ over "swg(16)" mm
  \t* 1.6256 (esc)
  $ over "1 hectare" acres
  \t* 2.4710538 (esc)
  $ over "640 acres" sqmi
  \t* 1 (esc)
  $ over "1 acre" sqft
  \t* 43560 (esc)
  $ over "1 acre" m^2
  \t* 4046.8564 (esc)
  $ over "50 sqft" m^2
  \t* 4.645152 (esc)
  $ over "50 square_feet" m^2
  \t* 4.645152 (esc)
  $ over "10 square(feet)" m^2
  \t* 0.9290304 (esc)
  $ over "1 km^2" acres
  \t* 247.10538 (esc)
  $ over "1 sqmi" km^2
  \t* 2.5899881 (esc)
  $ over "1 section" acres
  \t* 640 (esc)
  $ over "1 barn" fm^2
  \t* 100 (esc)
  $ over "120 yd * 53.3 yd" acres
  \t* 1.3214876 (esc)
  $ over A4_paper sqin
  \t* 96.673693 (esc)
  $ over "1 cup" ml
  \t* 236.58824 (esc)
  $ over "1 us_cup" ml
  \t* 236.58824 (esc)
  $ over "1 imperial_pint" ml
  \t* 568.26125 (esc)
  $ over "1 pint" ml
  \t* 473.17647 (esc)
  $ over "-l" en_GB "1 pint" ml
  \t* 568.26125 (esc)
  $ over "1 gallon" litres
  \t* 3.7854118 (esc)
  $ over "-l" en_GB "1 gallon" litres
  \t* 4.54609 (esc)
  $ over "-l" de_DE "1 gallon" litres
  \t* 3.7854118 (esc)
  $ over "1 imperial_gallon" l
  \t* 4.54609 (esc)
  $ over "1 us_gallon" imperial_gallon
  \t* 0.83267418 (esc)
  $ over "12 floz" ml
  \t* 354.88235 (esc)
  $ over "1 fluid_ounce" ml
  \t* 29.57353 (esc)
  $ over "1 tbsp" ml
  \t* 14.786765 (esc)
  $ over "1 tsp" ml
  \t* 4.9289216 (esc)
  $ over "3 tsp" tbsp
  \t* 1 (esc)
  $ over "1 cup" tbsp
  \t* 16 (esc)
  $ over "2 cups" floz
  \t* 16 (esc)
  $ over "1 quart" litre
  \t* 0.94635295 (esc)
  $ over "1 liter" quarts
  \t* 1.0566882 (esc)
  $ over "330 ml" floz
  \t* 11.158627 (esc)
  $ over "1 barrel" litres
  \t* 158.98729 (esc)
  $ over "1 bbl" gallons
  \t* 42 (esc)
  $ over "80 barrels/day" m^3/day
  \t* 12.718984 (esc)
  $ over "1 bushel" litres
  \t* 35.23907 (esc)
  $ over "1 cord" m^3
  \t* 3.6245564 (esc)
  $ over "1 acre foot" m^3
  \t* 1233.4818 (esc)
  $ over "1 acre_foot" gallons
  \t* 325851.43 (esc)
  $ over "1 cuft" l
  \t* 28.316847 (esc)
  $ over "1 cubic_foot" gallons
  \t* 7.4805195 (esc)
  $ over "1 l" cuin
  \t* 61.023744 (esc)
  $ over "3 cubic(yards)" l
  \t* 2293.6646 (esc)
  $ over "1 m^3" gallons
  \t* 264.17205 (esc)
  $ over "350 cuin" cc
  \t* 5735.4724 (esc)
  $ over "1000 ml" "us_cup;us_tbsp;us_tsp"
  \t4 us_cup + 3 us_tbsp + 1.8841362 us_tsp (esc)
  $ over "1 imperial_fluid_ounce" ml
  \t* 28.413062 (esc)
  $ over "-l" en_GB "1 floz" ml
  \t* 28.413062 (esc)
  $ over "1 metric_cup" ml
  \t* 250 (esc)
  $ over "1 oz" g
  \t* 28.349523 (esc)
  $ over "1 lb" kg
  \t* 0.45359237 (esc)
  $ over "180 lb" kg
  \t* 81.646627 (esc)
  $ over "75 kg" lb
  \t* 165.3467 (esc)
  $ over "1 stone" kg
  \t* 6.3502932 (esc)
  $ over "10 stone" kg
  \t* 63.502932 (esc)
  $ over "11 stone + 4 lb" kg
  \t* 71.667594 (esc)
  $ over "180 lb" stlb
  \t12 stone + 12 lb (esc)
  $ over "80 kg" "stone;lb"
  \t12 stone + 8.3698097 lb (esc)
  $ over "1 troyounce" g
  \t* 31.103477 (esc)
  $ over "1 ozt" g
  \t* 31.103477 (esc)
  $ over "1 troy_ounce" oz
  \t* 1.0971429 (esc)
  $ over "1 ton" kg
  \t* 907.18474 (esc)
  $ over "-l" en_GB "1 ton" kg
  \t* 1016.0469 (esc)
  $ over "1 tonne" lb
  \t* 2204.6226 (esc)
  $ over "1 long_ton" kg
  \t* 1016.0469 (esc)
  $ over "1 short_ton" tonnes
  \t* 0.90718474 (esc)
  $ over "1 carat" mg
  \t* 200 (esc)
  $ over "5 grains" mg
  \t* 323.99455 (esc)
  $ over "1 pennyweight" g
  \t* 1.5551738 (esc)
  $ over "500 g" lb
  \t* 1.1023113 (esc)
  $ over "8 oz" g
  \t* 226.79618 (esc)
  $ over "5 lb" "lb;oz"
  \t5 lb + 0 oz (esc)
  $ over "2.3 kg" "lb;oz"
  \t5 lb + 1.1301125 oz (esc)
  $ over "1 slug" kg
  \t* 14.593903 (esc)
  $ over "100 mcg" mg
  \t* 0.1 (esc)
  $ over "1 cwt" lb
  \t* 100 (esc)
  $ over "-l" en_GB "1 cwt" lb
  \t* 112 (esc)
  $ over "1 lb/ft^3" kg/m^3
  \t* 16.018463 (esc)
  $ over "1 g/cm^3" lb/gallon
  \t* 8.3454045 (esc)
  $ over "1 week" hours
  \t* 168 (esc)
  $ over "1 day" s
  \t* 86400 (esc)
  $ over "1 year" days
  \t* 365.25 (esc)
  $ over "1 century" s
  \t* 3.15576e+09 (esc)
  $ over "1 fortnight" days
  \t* 14 (esc)
  $ over "90 minutes" hours
  \t* 1.5 (esc)
  $ over "1.5 hours" hms
  \t1 hr + 30 min + 0 sec (esc)
  $ over "100000 s" "day;hr;min;sec"
  \t1 day + 3 hr + 46 min + 40 sec (esc)
  $ over "1e9 s" years
  \t* 31.688088 (esc)
  $ over "1 µs" s
  \t* 1e-06 (esc)
  $ over "100 µs" ms
  \t* 0.1 (esc)
  $ over "1 us" ns
  \t* 1000 (esc)
  $ over "5 das" s
  \t* 50 (esc)
  $ over "3 months" days
  \t* 91.3125 (esc)
  $ over "1 sidereal_day" hours
  \t* 23.93447 (esc)
  $ over "60 mph" km/h
  \t* 96.56064 (esc)
  $ over "100 km/h" m/s
  \t* 27.777778 (esc)
  $ over "100 km/h" mph
  \t* 62.137119 (esc)
  $ over "100 kph" mph
  \t* 62.137119 (esc)
  $ over "120 knots" km/h
  \t* 222.24 (esc)
  $ over "1 knot" m/s
  \t* 0.51444444 (esc)
  $ over "1 mph" knots
  \t* 0.86897624 (esc)
  $ over "100 mi/h" ft/s
  \t* 146.66667 (esc)
  $ over "1 furlong/fortnight" mm/s
  \t* 0.16630952 (esc)
  $ over c m/s
  \t* 2.9979246e+08 (esc)
  $ over c mph
  \t* 6.7061663e+08 (esc)
  $ over "1 standard_gravity" ft/s^2
  \t* 32.174049 (esc)
  $ over "9.81 m/s^2" gravity
  \t* 1.0003416 (esc)
  $ over "8 l / 100 km" mpg
  \treciprocal conversion (esc)
  \t* 29.401823 (esc)
  $ over "35 mpg" km/l
  \t* 14.88003 (esc)
  $ over "30 mpg" l_per_100km
  \t7.8404861 (esc)
  $ over "l_per_100km(7)" mpg
  \t* 33.602083 (esc)
  $ over "l_100km(8)" mpg
  \t* 29.401823 (esc)
  $ over "1 ips" mm/s
  \t* 25.4 (esc)
  $ over "1 lbf" N
  \t* 4.4482216 (esc)
  $ over "10 kgf" lbf
  \t* 22.046226 (esc)
  $ over "10 kg force" N
  \t* 98.0665 (esc)
  $ over "1 dyne" N
  \t* 1e-05 (esc)
  $ over "1 kip" kN
  \t* 4.4482216 (esc)
  $ over "1 poundal" N
  \t* 0.13825495 (esc)
  $ over "100 ft lbf" "N m"
  \t* 135.58179 (esc)
  $ over "80 N m" "ft lbf"
  \t* 59.004972 (esc)
  $ over "32 psi" bar
  \t* 2.2063223 (esc)
  $ over "1 atm" psi
  \t* 14.695949 (esc)
  $ over "15 psi" kPa
  \t* 103.42136 (esc)
  $ over "5 bar" psi
  \t* 72.518869 (esc)
  $ over "psig(32)" bar
  \t* 3.2195723 (esc)
  $ over "29.92 inHg" hPa
  \t* 1013.2075 (esc)
  $ over "760 mmHg" atm
  \t* 1.0000001 (esc)
  $ over "760 torr" atm
  \t* 1 (esc)
  $ over "120 mmHg" kPa
  \t* 15.998686 (esc)
  $ over "1013.25 hPa" mmHg
  \t* 759.99989 (esc)
  $ over "3 GPa" ksi
  \t* 435.11321 (esc)
  $ over "10 mH2O" bar
  \t* 0.980665 (esc)
  $ over "1 cP" "mPa s"
  \t* 1 (esc)
  $ over "1 cSt" mm^2/s
  \t* 1 (esc)
  $ over "1 kWh" MJ
  \t* 3.6 (esc)
  $ over "1 kWh" BTU
  \t* 3412.1416 (esc)
  $ over "12000 BTU/hour" kW
  \t* 3.5168528 (esc)
  $ over "1 BTU" J
  \t* 1055.0559 (esc)
  $ over "2000 kcal" kJ
  \t* 8368 (esc)
  $ over "2000 Calories" kJ
  \t* 8368 (esc)
  $ over "2000 kcal/day" W
  \t* 96.851852 (esc)
  $ over "1 cal" J
  \t* 4.184 (esc)
  $ over "1 therm" kWh
  \t* 29.300111 (esc)
  $ over "1 hp" W
  \t* 745.69987 (esc)
  $ over "150 hp" kW
  \t* 111.85498 (esc)
  $ over "1 PS" W
  \t* 735.49875 (esc)
  $ over "100 kW" hp
  \t* 134.10221 (esc)
  $ over "1 eV" J
  \t* 1.6021766e-19 (esc)
  $ over "13.6 eV" aJ
  \t* 2.1789602 (esc)
  $ over "1 erg" J
  \t* 1e-07 (esc)
  $ over "1 quad" J
  \t* 1.0550559e+18 (esc)
  $ over "1 toe" MWh
  \t* 11.63 (esc)
  $ over "1 ton_tnt" J
  \t* 4.184e+09 (esc)
  $ over "1 refrigeration_ton" kW
  \t* 3.5168528 (esc)
  $ over "3 kW * 24 hours" kWh
  \t* 72 (esc)
  $ over "1 W/m^2 K" "BTU/hour ft^2 degF"
  \t* 0.17611018 (esc)
  $ over "1 R_value" "m^2 K/W"
  \t* 0.17611018 (esc)
  $ over "1 clo" "m^2 K/W"
  \t* 0.155 (esc)
  $ over "tempF(350)" tempC
  \t176.66667 (esc)
  $ over "tempF(98.6)" tempC
  \t37 (esc)
  $ over "°F(350)" "°C"
  \t176.66667 (esc)
  $ over "tempC(-40)" tempF
  \t-40 (esc)
  $ over "tempC(100)" K
  \t* 373.15 (esc)
  $ over "tempC(20)" tempF
  \t68 (esc)
  $ over "tempF(0)" K
  \t* 255.37222 (esc)
  $ over "300 K" tempC
  \t26.85 (esc)
  $ over "300 K" tempF
  \t80.33 (esc)
  $ over "tempF(-459.67)" K
  \t* 0 (esc)
  $ over "tempF(-460)" K
  not in domain: tempF
  [1]
  $ over "98.6 degF" degC
  \t* 54.777778 (esc)
  $ over "20 degC" degF
  \t* 36 (esc)
  $ over "gas_mark(4)" tempF
  \t350 (esc)
  $ over "12 V * 5 A" W
  \t* 60 (esc)
  $ over "60 W / (120 V)" A
  \t* 0.5 (esc)
  $ over "5000 mAh * 3.7 V" Wh
  \t* 18.5 (esc)
  $ over "1 Ah" C
  \t* 3600 (esc)
  $ over "1 uF" nF
  \t* 1000 (esc)
  $ over "1/(2 pi * 50 Hz * 10 uF)" ohm
  \t* 318.30989 (esc)
  $ over "1 / (2 pi sqrt(1 mH * 100 nF))" kHz
  \t* 15.915494 (esc)
  $ over "1 gauss" tesla
  \t* 0.0001 (esc)
  $ over "50 kGs" T
  \t* 5 (esc)
  $ over "1 oersted" A/m
  \t* 79.577472 (esc)
  $ over "1 debye" "C m"
  \t* 3.335641e-30 (esc)
  $ over "4.7 kΩ" ohm
  \t* 4700 (esc)
  $ over "1 / (1|10 ohm + 1|22 ohm)" S
  \t* 6.875 (esc)
  $ over "1 footcandle" lx
  \t* 10.76391 (esc)
  $ over "1 footlambert" cd/m^2
  \t* 3.4262591 (esc)
  $ over "1 curie" Bq
  \t* 3.7e+10 (esc)
  $ over "1 curie" GBq
  \t* 37 (esc)
  $ over "100 mrem" mSv
  \t* 1 (esc)
  $ over "1 roentgen" C/kg
  \t* 0.000258 (esc)
  $ over "1 Sv" rem
  \t* 100 (esc)
  $ over "440 Hz * rev" rpm
  \t* 26400 (esc)
  $ over "3600 rpm / rev" Hz
  \t* 60 (esc)
  $ over "3600 rpm" Hz
  conformability error
  \t376.99112 radian / s (esc)
  \t1 / s (esc)
  [1]
  $ over "3000 rpm" rad/s
  \t* 314.15927 (esc)
  $ over "1 rpm" rev/min
  \t* 1 (esc)
  $ over "10 rps" rpm
  \t* 600 (esc)
  $ over "100 N m * 3000 rpm" kW
  conformability error
  \t31415.927 kg m^2 radian / s^3 (esc)
  \t1000 kg m^2 / s^3 (esc)
  [1]
  $ over "100 N m * 3000 rpm / rad" kW
  \t* 31.415927 (esc)
  $ over "(3000 rpm / rad)^2 * 10 cm" gravity
  \t* 1006.4196 (esc)
  $ over "1 rev" degrees
  \t* 360 (esc)
  $ over "90 degrees" rad
  \t* 1.5707963 (esc)
  $ over "1 arcsec" µrad
  \t* 4.8481368 (esc)
  $ over "1 rad" degrees
  \t* 57.29578 (esc)
  $ over "45.5 deg" dms
  \t45 deg + 30 arcmin + 0 arcsec (esc)
  $ over "33.333 rev/minute" rad/s
  \t* 3.4906236 (esc)
  $ over "1 square_degree" sr
  \t* 0.00030461742 (esc)
  $ over "100 gon" degrees
  \t* 90 (esc)
  $ over "2 GiB" GB
  \t* 2.1474836 (esc)
  $ over "1 GiB" MB
  \t* 1073.7418 (esc)
  $ over "1 TB" TiB
  \t* 0.9094947 (esc)
  $ over "100 Mbit/s" MiB/s
  \t* 11.920929 (esc)
  $ over "100 Mb/s" MB/s
  \t* 12.5 (esc)
  $ over "100 Mbps" MB/s
  \t* 12.5 (esc)
  $ over "1 Gbit/s" GB/hour
  \t* 450 (esc)
  $ over "1 byte" bits
  \t* 8 (esc)
  $ over "4 GB / (50 Mbit/s)" minutes
  \t* 10.666667 (esc)
  $ over "700 MiB" MB
  \t* 734.0032 (esc)
  $ over "64 KiB" bytes
  \t* 65536 (esc)
  $ over "1 dozen" 1
  \t* 12 (esc)
  $ over "1 gross" dozen
  \t* 12 (esc)
  $ over 300 score
  \t* 15 (esc)
  $ over "25 crore" million
  \t* 250 (esc)
  $ over "1 ppm" percent
  \t* 0.0001 (esc)
  $ over "40 hours/week" percent
  \t* 23.809524 (esc)
  $ over pi 1
  \t* 3.1415927 (esc)
  $ over "3 million / dozen" 1
  \t* 250000 (esc)
  $ over avogadro 1/mol
  \t* 6.0221408e+23 (esc)
  $ over R "J/mol K"
  \t* 8.3144626 (esc)
  $ over "k_B * 300 K" eV
  \t* 0.025852 (esc)
  $ over h_over_e "V s"
  \t* 4.1356677e-15 (esc)
  $ over "hc_over_e / (500 nm)" V
  \t* 2.479684 (esc)
  $ over "photon(500 nm)" eV
  \t* 2.479684 (esc)
  $ over "18 g / molar_mass_water" mol
  \t* 0.99916736 (esc)
  $ over "5 mM" mol/l
  \t* 0.005 (esc)
  $ over "1 u" kg
  \t* 1.6605391e-27 (esc)
  $ over "1 Jy" "W/m^2 Hz"
  \t* 1e-26 (esc)
  $ over "70 denier" tex
  \t* 7.7777778 (esc)
  $ over "1 stick_of_butter" g
  \t* 113.39809 (esc)
  $ over "1 gallon/minute" l/s
  \t* 0.063090196 (esc)
  $ over "30 gpm" l/min
  \t* 113.56235 (esc)
  $ over "1 cfm" l/s
  \t* 0.47194744 (esc)
  $ over "3 ft" kg
  conformability error
  \t0.9144 m (esc)
  \t1 kg (esc)
  [1]
  $ over "sqrt(2) m" cm
  no exact root
  [1]
  $ over "1 USD" EUR
  unknown unit: USD
  [1]
  $ over "2 m + 3 s" m
  sum of unlike units: 2 m and 3 s
  [1]
  $ over tempF K
  argument needed: tempF
  [1]
  $ over "1 GHz" bit
  conformability error
  \t1e+09 / s (esc)
  \t1 bit (esc)
  [1]
  $ over "1|2 * 1000 kg * (100 km/hour)^2" kJ
  \t* 385.80247 (esc)
  $ over "G_N earth_mass / earth_radius^2" m/s^2
  \t* 9.8202244 (esc)
  $ over "2 G_N solar_mass / c^2" km
  \t* 2.9532501 (esc)
  $ over "stefan_boltzmann * (300 K)^4" W/m^2
  \t* 459.30033 (esc)
  $ over "planck c / (532 nm)" eV
  \t* 2.33053 (esc)
  $ over "planck * 3 GHz" J
  \t* 1.987821e-24 (esc)
  $ over "planck * 1 GHz / k_B" mK
  \t* 47.992431 (esc)
  $ over "hbar c" "MeV fm"
  \t* 197.32698 (esc)
  $ over "electron_mass c^2" keV
  \t* 510.99895 (esc)
  $ over "proton_mass c^2" MeV
  \t* 938.27209 (esc)
  $ over "u c^2" MeV
  \t* 931.4941 (esc)
  $ over "k_B * 300 K / elementary_charge" mV
  \t* 25.852 (esc)
  $ over "planck / (electron_mass c)" pm
  \t* 2.4263102 (esc)
  $ over "bohr_magneton * 1 T / planck" GHz
  \t* 13.996245 (esc)
  $ over "elementary_charge * 1 T / (2 pi electron_mass)" GHz
  \t* 27.99249 (esc)
  $ over "rydberg_constant c" THz
  \t* 3289.842 (esc)
  $ over "1 atm / (k_B * 273.15 K)" 1/cm^3
  \t* 2.6867801e+19 (esc)
  $ over "1 mol R * 298.15 K / (1 atm)" l
  \t* 24.465404 (esc)
  $ over "55.845 g/mol / avogadro" kg
  \t* 9.2732804e-26 (esc)
  $ over "1 amu / (1 angstrom^3)" g/cm^3
  \t* 1.6605391 (esc)
  $ over "4|3 pi (6371 km)^3" km^3
  \t* 1.0832069e+12 (esc)
  $ over "4 pi (1 au)^2" m^2
  \t* 2.8122938e+23 (esc)
  $ over "solar_luminosity / (4 pi au^2)" W/m^2
  \t* 1361.1665 (esc)
  $ over "1 kpc" ly
  \t* 3261.5638 (esc)
  $ over "1/(70 km/s/Mpc)" year
  \t* 1.396846e+10 (esc)
  $ over "sqrt(2 * 9.8 m/s^2 * 10 m)" m/s
  \t* 14 (esc)
  $ over "1 l/m^2" mm
  \t* 1 (esc)
  $ over "1000 kg/m^3 * gravity * 10 m" kPa
  \t* 98.0665 (esc)
  $ over "1e6 cuft/day" gpm
  \t* 5194.8052 (esc)
  $ over "(60 mph)^2 / (2 * 100 m)" gravity
  \t* 0.3668129 (esc)
  $ over "1 W/m^2 * 1 acre * 1 year" kWh
  \t* 35474.743 (esc)
  $ over "1 horsepower hour/gallon" J/m^3
  \t* 7.0917504e+08 (esc)
  $ over "1 kWh / (1000 kg * gravity)" m
  \t* 367.09784 (esc)
  $ over "100 lbf / (3 in * 4 in)" psi
  \t* 8.3333333 (esc)
  $ over "1/(1/(10 ohm) + 1/(22 ohm))" ohm
  \t* 6.875 (esc)
  $ over "2 pi * 50 Hz * 10 mH" ohm
  \t* 3.1415927 (esc)
  $ over "(1 inch)^4 / 12" mm^4
  \t* 34685.952 (esc)
  $ over "pi (0.25 inch)^2 100 ft" gallons
  \t* 1.0199976 (esc)
  $ over "206265 arcsec" rad
  \t* 1.0000009 (esc)
  $ over "1.22 radian * 550 nm / (10 cm)" arcsec
  \t* 1.3840368 (esc)
  $ over "1 barn * 1e34 / (cm^2 s)" 1/s
  \t* 1e+10 (esc)
  $ over "1 gram c^2" TJ
  \t* 89.875518 (esc)
  $ over "1 kg c^2" megaton_tnt
  \t* 21.480764 (esc)
  $ over "0.5 * 1.225 kg/m^3 * (30 m/s)^2 * 2.2 m^2 * 0.3" N
  \t* 363.825 (esc)
  $ over "12 V * 100 Ah" kWh
  \t* 1.2 (esc)
  $ over "1 tablespoon * 1 g/ml" oz
  \t* 0.52158778 (esc)
  $ over "2 TB / (600 MB/s)" minutes
  \t* 55.555556 (esc)
  $ over "2000 sqft * 40 BTU/(hour sqft)" kW
  \t* 23.445686 (esc)
  $ over "50 gpm * 100 psi" hp
  \t* 2.9166667 (esc)
  $ over "1 light-year" km
  sum of unlike units: 2.9979246e+08 m / s and 31557600 s
  [1]
