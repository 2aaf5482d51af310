# Draws docs/open.svg from docs/bench.tsv: the time of an open against the entries, in both editions. From the root: gnuplot docs/open.gp
set terminal svg size 900,460 font "sans,12" background rgb "white"
set output "docs/open.svg"
set datafile separator "\t"
set logscale xy
set xlabel "entries"
set ylabel "milliseconds"
set key below maxcols 3
set xtics (64, 256, 1024, 4094)
set format y "%g"
rows(volume, call, program) = sprintf("< awk -F'\t' '$1 == \"%s\" && $3 == \"%s\" && $4 == \"%s\" { print $2 \"\t\" $5 }' docs/bench.tsv", volume, call, program)
set multiplot layout 1,2
do for [volume in "'in order' 'shuffled'"] {
    set title volume
    newer = volume . ", 1.10"
    plot rows(volume, "open", "library") with linespoints title "library, 1.0", rows(newer, "open", "library") with linespoints title "library, 1.10", rows(volume, "open", "second") with linespoints title "second program, 1.0", rows(newer, "open", "second") with linespoints title "second program, 1.10", rows(volume, "pass", "machine") with linespoints title "one pass over the index bytes"
}
unset multiplot
