# A thread that finds no frame free wakes its crew by a round of help, which no clause speaks of: a crew that has been idle
# sleeps for up to 160 milliseconds. In one run pages are filled ten times with help and ten times without; with it, they are
# filled in less than half the time.

wakes_its_crew() {
    local rung left
    read -r rung left < <(timeout 60 "$pace" rings 10)
    echo "$rung microseconds where the crew was woken, $left where it wasn't"
    ((rung > 0 && rung * 2 < left))
}

check "a thread wakes its crew" wakes_its_crew
