# A day of one tray cart, as lines 'time x y' for `trail write`: it waits at a belt, is pushed to the next, and so on through the hall. Now and then it goes
# behind the cold store, where it isn't heard; the last line before that ends with 'silence'.
#
#     awk -f examples/day.awk > day.txt
#     awk -v every=1 -v hours=8 -v cart=7 -f examples/day.awk > cart-07.txt
#
# Times are in seconds of the day, places in centimetres. The cart reports every seven seconds, which makes a whole day one trail; `every` and `hours` say
# otherwise, as for a shift with a report each second, and `cart` is a number for each of several carts.
# The same numbers come out on every machine: the wobble is drawn by a small generator of this script's own.

function wobble(size) {
    seed = (seed * 75 + 74) % 65537
    return seed % (2 * size + 1) - size
}

function over() {
    return hours && time >= start + 3600 * hours
}

function report(x, y) {
    if (over()) return
    printf "%d %d %d\n", time, x, y
    time += every
}

# how many reports a cart makes while another with a report every seven seconds makes so many
function as_often(reports) {
    return int(reports * 7 / every)
}

# the cart stands at a belt; its beacon wavers by a centimetre or two
function waits(reports, k) {
    for (k = 0; k < as_often(reports); k++) report(x + wobble(2), y + wobble(2))
}

# it is pushed in a line, by a hand that does not keep it quite straight
function pushed(to_x, to_y, reports, k, part) {
    reports = as_often(reports)
    for (k = 1; k <= reports; k++) {
        part = k / reports
        report(x + int((to_x - x) * part) + wobble(6), y + int((to_y - y) * part) + wobble(6))
    }
    x = to_x
    y = to_y
}

# it is pushed behind the cold store, and heard again where it comes out; not at the end of its day, after which nobody hears it
function unheard(to_x, to_y, minutes) {
    if (hours && time + 60 * minutes >= start + 3600 * hours) return
    printf "%d %d %d silence\n", time, x, y
    time += 60 * minutes
    x = to_x
    y = to_y
}

BEGIN {
    if (!every) every = 7
    if (!cart) cart = 1
    seed = cart
    start = time = 21600
    x = -1500
    y = -600
    waits((cart - 1) * 5)        # one after the other
    for (round = 0; hours ? !over() : round < 20; round++) {
        waits(60)
        pushed(-200, -580, 12)   # to the grader
        waits(40 + wobble(10))
        pushed(-180, 400, 9)     # along the grader's belt
        waits(10)
        pushed(1400, 420, 15)    # across to the packing area
        waits(25 + wobble(8))
        if (round % 8 == 5)
            unheard(-1500, -600, 9)  # and back to the wash, by the cold store
        else
            pushed(-1500, -600, 20)  # or straight
    }
}
