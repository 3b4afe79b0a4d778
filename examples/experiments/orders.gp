# Events of a walk against units, by order: gnuplot -c orders.gp TABLE PICTURE
set terminal svg size 720,400 font "sans-serif,13" background "white"
set output ARG2
set datafile separator ","
set datafile columnheaders
set datafile missing NaN
set logscale y
set yrange [100:200000]
set xrange [0.5:16.5]
set xtics (1, 2, 4, 6, 8, 10, 12, 14, 16)
set xlabel "units"
set ylabel "events until the exit"
set grid
set key left top
set arrow from 0.5, 100000 to 16.5, 100000 nohead dashtype 3
set label "most events of these runs" at 0.8, 140000
at(walk, order) = strcol("walk") eq walk && strcol("order") eq order && strcol("ending") eq "exit" ? column("units") : NaN
set key at graph 0.02, 0.88
plot for [order in "youngest rotate"] for [walk in "changing steady"] \
    ARG1 using (at(walk, order)):(column("events")) with linespoints title order.", ".walk
