# shellcheck shell=bash
# What the refusal of a graph file means, for each command that reads one; document 01's table in a planner's words.
meaning() { # NUMBER LINE
    case $1:$2 in
    10:*) echo 'no known kind of line; there are "c words", "p edge V E" and "e A B", with single spaces, no empty ones, and neither carriage returns nor a byte order mark' ;;
    11:0) echo 'there is no p line' ;;
    11:*) echo 'a second p line, or an e line before the p line' ;;
    12:*) echo 'vertices not 1 to 20, or edges not 1 to 4,096' ;;
    13:*) echo 'an edge from a vertex to itself, or a vertex that was not declared' ;;
    14:0) echo 'there are fewer e lines than the p line declares' ;;
    14:*) echo 'one e line more than the p line declares' ;;
    15:*) echo 'the text is longer than 32,768 bytes' ;;
    16:*) echo 'the 65th different edge' ;;
    *) echo 'the file was not taken' ;;
    esac
}
