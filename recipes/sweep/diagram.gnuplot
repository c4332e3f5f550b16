# The fundamental diagram of out/zone.tsv, as out/diagram.png. Colours and shapes tell the inflows
# apart; bars reach to the ends of the 95 % intervals of the flow. The broken line is free flow at the
# space-mean speed 4.75, the limit 5 less the slowing chance 1/4.
set terminal pngcairo size 900,560 font "sans,12"
set output "out/diagram.png"
set title "60 roads of speed limit 5 and slowing chance 1/4, before a zone of more slowing"
set xlabel "density, cars a cell"
set ylabel "flow, cars a step"
set xrange [0:1]
set yrange [0:0.5]
set grid lc rgb "#cccccc"
set key right top title "inflow chance"
table = "out/zone.tsv"
inflows = "6144 12288 20480 32768 65536"
colours = "#000000 #0072b2 #009e73 #d55e00 #cc79a7"
set samples 2
plot 4.75 * x with lines dt 2 lc rgb "#767676" notitle, \
     for [i = 1:5] table using ($2 == word(inflows, i) + 0 ? $7 : NaN):3:8:4 every ::1 \
         with xyerrorbars pt (2 * i + 3) ps 1.2 lc rgb word(colours, i) \
         title sprintf("%.3f", word(inflows, i) / 65536.0)
