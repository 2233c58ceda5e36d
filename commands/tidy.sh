# shellcheck shell=bash
# ./tidy: what it says, and what its refusals mean. Its program writes a graph file back tidied.
# shellcheck disable=SC2034
name=tidy

usage() {
    cat <<'END'
Usage: ./tidy FILE
       ./tidy < FILE      ("-" as FILE is standard input, too)
       ./tidy --version   the commit, and the kit that proved the program
       ./tidy --help      this text

Reads a DIMACS colouring file, as ./layouts does, and writes it back tidied: "p edge V E", where E
is the number of different edges, then each edge once, the smaller vertex first, ordered by the
first and then by the second vertex; no comments. What is tidied already is written as it is.

Standard output: the tidied text, of at most 525 bytes. Or one line "refused N line L".
Standard error: a sentence with the numbers of comment lines, of repeated edges and of lines with
the larger vertex first (a line may count as both of the last two); or other words.

Exit status: 0  the tidied text was written whole
             2  the file was refused
             1  anything else; the output is not to be taken for a whole one
END
}

. "$home/commands/graphs.sh"
