# shellcheck shell=bash
# ./layouts: what it says, and what its refusals mean. Its program writes every layout of a graph file.
# shellcheck disable=SC2034
name=layouts

usage() {
    cat <<'END'
Usage: ./layouts FILE
       ./layouts < FILE      ("-" as FILE is standard input, too)
       ./layouts --version   the commit, and the kit that proved the program
       ./layouts --help      this text

Reads a DIMACS colouring file and writes every layout of it: every way to give each vertex the
number 0, 1 or 2 (a shift, a level) so that the two ends of each edge have different numbers.

The file has at most 20 vertices, 64 different edges, 4,096 e lines and 32,768 bytes:
    c any words                a comment
    p edge 3 2                 3 vertices and 2 e lines; once, before the edges
    e 1 2                      vertices 1 and 2 must differ; "e 2 1" is the same edge, taken once

Standard output: "vars V eqs E"; one line for each layout: its place in the search, its point and
its digits, vertex 1 first; and the totals with the word "ended". Or one line "refused N line L".
Standard error: words, and the progress of a long search when it is a terminal.

Exit status: 0  the search ended and everything was written
             2  the file was refused
             1  anything else; the output is not to be taken for a whole one
With fewer edges than half the vertices the number of layouts is a multiple of 3. Where it is not, the
search went wrong, and the status is 1; a multiple of 3 proves nothing.
END
}

# What the program tells of a search that ended: the output without its layouts.
counts=$'^vars ([1-9][0-9]?) eqs ([1-9][0-9]?)\npoints [0-9]+ additions [0-9]+ found ([0-9]{1,18}) ended$'
ended() { [[ $# == 2 && $1$'\n'$2 =~ $counts ]]; }

# Into `why`, why it was no right one (C-22, the theorem of Chevalley and Warning), or nothing.
wrong() {
    ended "$@" || return 0
    local vertices=${BASH_REMATCH[1]} edges=${BASH_REMATCH[2]} found=$((10#${BASH_REMATCH[3]}))
    ((2 * edges >= vertices || found % 3 == 0)) ||
        why="the search went wrong, and its output is not to be used: $found layouts are no multiple of 3, as they have to be with fewer edges ($edges) than half the vertices ($vertices)"
}

. "$home/commands/graphs.sh"
