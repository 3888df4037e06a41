# Plots the microseconds a tuple over the number of tuples, from the tables of measure.py:
#   bench/run.sh --queries all,q1 > growth.md && gnuplot bench/growth.gnuplot
# It needs gnuplot, and writes docs/growth.svg.
set terminal svg size 760,440 background "white"
set output "docs/growth.svg"
set datafile separator "|"
set datafile missing NaN
set logscale xy
set xrange [8000:400000]
set xtics ("10,000" 10000, "30,000" 30000, "100,000" 100000, "300,000" 300000)
set xlabel "tuples in the stream"
set ylabel "microseconds of processor time a tuple"
set key outside right
set grid ytics
is(stream, queries) = word(strcol(2), 1) eq stream && word(strcol(3), 1) eq queries
plot \
    "growth.md" using (is("uniform", "all") ? $4 : NaN):8 with linespoints title "uniform, eleven", \
    "growth.md" using (is("so", "all") ? $4 : NaN):8 with linespoints title "so, eleven", \
    "growth.md" using (is("social", "all") ? $4 : NaN):8 with linespoints title "social, eleven", \
    "growth.md" using (is("yago", "all") ? $4 : NaN):8 with linespoints title "yago, eleven", \
    "growth.md" using (is("uniform", "q1") ? $4 : NaN):8 with linespoints title "uniform, A*", \
    "growth.md" using (is("so", "q1") ? $4 : NaN):8 with linespoints title "so, A*", \
    "growth.md" using (is("social", "q1") ? $4 : NaN):8 with linespoints title "social, A*", \
    "growth.md" using (is("yago", "q1") ? $4 : NaN):8 with linespoints title "yago, A*"
