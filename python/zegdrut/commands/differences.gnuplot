# What each day of by_day.csv has more vehicle hours after than before (in `column` and the one after it), as differences.png, both in the
# folder `out`; their mean `mean` as a line, its 95 % interval, `half` to both sides, as a band. `name` is the figure's.
set terminal pngcairo size 900,420 font "sans,12"
set output out."/differences.png"
set datafile separator ","
set title sprintf(name.", after less before: mean %.3f ± %.3f", mean, half)
set xlabel "day"
set ylabel "vehicle hours"
set xrange [-0.5:days-0.5]
set yrange [*<0:0<*]
set grid ytics lc rgb "#cccccc"
set xzeroaxis lc rgb "#000000"
set object 1 rectangle from graph 0, first mean-half to graph 1, first mean+half fc rgb "#cce3f1" fs solid noborder behind
set key off
plot out."/by_day.csv" using 1:(column(column+1)-column(column)) every ::1 with impulses lw 3 lc rgb "#0072b2", \
     mean with lines dt 2 lc rgb "#000000"
