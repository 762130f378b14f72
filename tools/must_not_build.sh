#!/usr/bin/env bash
# What must not build: a meet, a cap or a surface that is thickened, a depth read from a ray that still marches, a step of a ray
# that has settled, a view whose numbers are written. Each case is a tiny program, beside a twin that differs in a type or a
# statement and does build. The compiler's front end reads both with the repository's crates as they stand, proving nothing, and a
# case must be refused by the error that is named here. A line says how each case went; the status is 1 if any went otherwise.
set -eu
root=$(cd "$(dirname "$0")/.." && pwd)
kit=$(dirname "$(rt doc)")
work=$(mktemp -d)
trap 'rm -rf "$work"' EXIT

# libraries: the crates that the named ones stand on, and they themselves, as sources
libraries() {
    local name
    for name; do
        case " ${own[*]-} " in *" $name:std"*) continue ;; esac
        local below
        below=$(sed -n "s/^$name://p" "$root/crates.txt")
        own+=(--lib "$name:std${below:+$(printf ",%s" $below)}=$root/crates/$name/src/lib.rt")
        libraries $below
    done
}

surprises=0
tried=0

mkdir -p "$work/trial/src"
compile() { # reads a program from standard input, and leaves what the compiler says of it in $work/said
    cat >"$work/trial/src/main.rt"
    "$kit/bin/rattle" check "$work/trial/src/main.rt" --crate-name trial --antt-project "$kit/rattle/logic/antt-project.json" --logic-built "$kit/logic_built" \
        --extern "std=$kit/rlibs/std.rlib" -L "dependency=$kit/rlibs" "${own[@]}" --only '' >"$work/said" 2>&1
}

surprise() { # WHAT
    surprises=$((surprises + 1))
    echo "SURPRISE: $1"
    cut -c1-300 "$work/said"
}

builds() { # WHAT, with the program as standard input
    tried=$((tried + 1))
    if compile; then echo "builds: $1"; else surprise "$1 must build"; fi
}

refused() { # WHAT ERROR TEXT, with the program as standard input
    tried=$((tried + 1))
    if compile; then
        surprise "$1 must not build, and does"
    elif [ "$(grep -c 'error\[' "$work/said")" = 1 ] && grep -F "error[$2]" "$work/said" | grep -qF "$3"; then
        echo "refused, as it must be: $1 ($2)"
    else
        surprise "$1 must be refused by $2, $3"
    fi
}

thickening() { # TYPE [USE]: a solid of that type, thickened; all that the crates offer is in scope
    cat <<END
use layers::*;
use solid::*;
${2-}

pub fn thickened<'a, S: Exact + Drop, T: Exact + Drop>(below: $1) -> bool {
    Thicken::new(below, 1).is_ok()
}

fn main() {}
END
}

asking() { # TYPE CALL: that call on a ray of that type
    cat <<END
use march::*;
use solid::*;

pub fn asked<S: Solid>(ray: $1, solid: &S) {
    let _ = ray.$2;
}

fn main() {}
END
}

writing() { # STATEMENT: one that a view is at hand for
    cat <<END
use march::*;

pub fn seen(mut view: View) -> View {
    $1;
    view
}

fn main() {}
END
}

bound=unsatisfied-bound
method=unknown-method

own=()
libraries layers
builds "a thickened unite of exact solids" < <(thickening 'Unite<S, T>')
builds "a thickened shift" < <(thickening 'Shift<S>')
builds "a thickened unite of lent solids" < <(thickening "Unite<&'a S, &'a T>")
refused "a thickened meet" $bound '`Meet<S, T>: Exact`' < <(thickening 'Meet<S, T>')
refused "a thickened cap" $bound '`Cap<S>: Exact`' < <(thickening 'Cap<S>')
refused "a thickened unite with a meet in it" $bound '`Meet<S, T>: Exact`' < <(thickening 'Unite<S, Meet<S, T>>')

libraries leaves
builds "a thickened ball" < <(thickening Ball 'use leaves::*;')
builds "a thickened box" < <(thickening AxisBox 'use leaves::*;')
refused "a thickened surface" $bound '`Surface: Exact`' < <(thickening "Surface<'a>" 'use leaves::*;')

own=()
libraries march
builds "a depth read from a settled ray" < <(asking Settled 'depth()')
refused "a depth read from a marching ray" $method 'no method named `depth` found for type `Marching`' < <(asking Marching 'depth()')
builds "a step of a marching ray" < <(asking Marching 'step(solid)')
builds "a view made blank" < <(writing 'view = View::blank()')
refused "a view made wider than its numbers" private-field 'width' < <(writing 'view.width = 65')
refused "a step of a settled ray" $method 'no method named `step` found for type `Settled`' < <(asking Settled 'step(solid)')

echo "what must not build: $tried tried, $surprises surprises"
[ "$surprises" = 0 ]
