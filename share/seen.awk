# Says of a report how many answers it has, to which lines of its script, and how many verdicts `check` does not judge.
# Each line of the input has the number of a line of the report, `:`, and what share/check looks for in it. The first line of
# the output is the number of the first line that ends with a carriage return and is no echo, or 0.
BEGIN { FS = ":" }

function say(text) {
    print "rpstore: " text
}

# Adds the lines of the script from `from` to `to` to those without an answer. Five ranges are named.
function leave_out(from, to) {
    unanswered += to - from + 1
    if (++ranges > 5) return
    names = names (ranges > 1 ? ", " : "") from (to > from ? " to " to : "")
    named += to - from + 1
}

$2 ~ /^>/ && substr($2, 3) + 0 <= 16777216 {
    number = substr($2, 3) + 0
    if (number <= last) disordered = 1
    if (number > last + 1) leave_out(last + 1, number - 1)
    if (!answers++) first = number
    last = number
    echo = $1
}
$2 ~ /^=/ { unjudged++ }
# Only an echo may end with a carriage return, as its line of the script did: the first other line is wrong, or one before it.
$2 ~ /^\r/ && $1 != echo && !returned { returned = $1 }

END {
    print returned + 0
    if (answers) {
        count = answers == 1 ? "1 answer, to line " last : answers " answers, to lines " first " to " last
        say("the report has " count " of the script. Whether the script goes on after line " last " is not in a report.")
        if (unanswered && !disordered)
            say("no answer to line" (unanswered > 1 ? "s " : " ") names (unanswered > named ? " and " unanswered - named " more" : "") \
                ". This is usual: blank lines and notes have none.")
        say("verdicts that check does not judge, '= refused limit' or '= refused long': " unjudged + 0)
    } else
        say("the report has no answer, so nothing was checked: it is empty, or no report. If it should have answers, ask for it again.")
}
