# Each file is as rt fmt lays it out: rt ci wants that, and says so late.

! command -v rt > /dev/null || check "the layout" "$scripts/layout"
