#!/bin/sh
# Tries layers.sh on a folder of its own: it must report the lines below that end with '-- reported' or '// reported', each a way to
# unfold a definition of another crate, and each wrong crates.txt; and nothing else.
set -eu
layers=$(cd "$(dirname "$0")" && pwd)/layers.sh
folder=$(mktemp -d)
trap 'rm -rf "$folder"' EXIT
cd "$folder"
mkdir -p crates/shop/proofs crates/shop/src crates/shop/out
fail() {
    printf 'try_layers.sh: %s\n' "$*" >&2
    exit 1
}

cat >crates.txt <<'END'
# NAME: the crates that it uses

## numbers: what everything is counted in
ticks:
rate: ticks # and nothing else

## shops: who counts
shop: ticks rate
till: shop io
bell staticlib: ticks
END

# '== NAME' begins the file proofs/NAME.antt, '== FOLDER/FILE' that file
awk '/^== / { file = "crates/shop/" ($2 ~ "/" ? $2 : "proofs/" $2 ".antt"); next } { print >file }' <<'END'
== by_its_name
use Rattle.rate.specs.Grains.{capacity, price}
a : ℕ
unfolding price -- reported
a = 0
== by_another_name
use Rattle.rate.specs.Grains.{because as b, price as p}
a : ℕ
unfolding b -- reported
a = 0
== by_names_over_lines
use Rattle.rate.specs.Grains.{
  capacity,
  price,
}
a : ℕ
unfolding price -- reported
a = 0
== by_its_whole_path
a : ℕ
unfolding Rattle.rate.specs.Grains.price -- reported
a = 0
== by_the_package
a : ℕ
unfolding package.Rattle.rate.specs.Grains.price -- reported
a = 0
== by_its_module
use Rattle.rate.specs.Grains
a : ℕ
unfolding Grains.price -- reported
a = 0
== by_a_name_for_its_module
use Rattle.rate.specs.Grains as g
a : ℕ
unfolding g.price -- reported
a = 0
== by_a_name_for_its_specs
use Rattle.rate.specs as x
a : ℕ
unfolding x.Grains.price -- reported
a = 0
== by_a_name_for_its_crate
use Rattle.rate as r
a : ℕ
unfolding r.specs.Grains.price -- reported
a = 0
== by_a_name_of_a_name
use g.{price}
use Rattle.rate.specs.Grains as g
a : ℕ
unfolding price -- reported
a = 0
== in_a_second_line
use Rattle.rate.specs.Grains.{price}
a : ℕ
unfolding
    b -- for the first step in it

    price -- reported
a = 0
== in_a_block
use Rattle.rate.specs.Grains.{price}
module _ (n : ℕ) where
    a : ℕ
    unfolding b
        price -- reported
    a = n
== in_a_term
use Rattle.rate.specs.Grains.{price}
a : f (unfold b price in 0) -- reported
a = c
== in_a_term_over_lines
use Rattle.rate.specs.Grains.{price}
a : ℕ
a = f "-- a text" (unfold b
    price in 0) -- reported
== passed_on
unfoldable pub use Rattle.rate.specs.Grains.{price} -- reported
== in_a_block_comment
{- unfold -} -- reported
== src/in_an_attribute.rt
#[tactic(auto, unfolding(rate::specs::Grains::price))] // reported
fn one() {}

#[tactic(
    auto,
    unfolding(crate::specs::Shop::stock, rate::specs::Grains::price), // reported
    using(rate::proofs::Limits::price_law),
)]
fn two() {}
== src/in_a_ghost_term.rt
ghost use Rattle.rate.specs.Grains.{price};
fn one() {
    ghost a: { ℕ } = { unfold price in 0 }; // reported
}
== out/what_rt_made.antt
use Rattle.rate.specs.Grains.{price}
a : ℕ
unfolding price
a = 0
== src/clean.rt
ghost use Rattle.rate.specs.Grains.{price};
use rate::answer::{Outcome, Reason};
// unfolding(rate::specs::Grains::price)
#[tactic(auto, unfolding(crate::specs::Shop::stock), using(rate::proofs::Limits::price_law))]
fn one() -> u32
    ensures { result ≡ price }
{
    rate::decision::price("unfolding price")
}
== Clean
use Rattle.rate.specs.Grains as g
use Rattle.rate.specs.Grains.{price}
use Rattle.rate.proofs.Limits.{price_law}
use Rattle.shop.specs.Shop.{stock, sold as gone}
use mathlib.Core.Path.{◌≡◌}
use Rattle.std.specs.Io.{written}
-- unfolding price
a : price ≡ g.price
unfolding
    stock
    gone
a = price_law price

c : ℕ
unfolding written
c = 0

b : ℕ
b = unfold stock in price
== Worked
use Rattle.rate.specs.Grains.{price}
a : ℕ
unfolding price
a = 0
END

if "$layers" "$folder" >found; then status=0; else status=$?; fi
cut -d: -f1,2 found | sort >reported
grep -rn -e '-- reported$' -e '// reported$' crates | cut -d: -f1,2 | sort >expected
diff expected reported >&2 || fail "expected (<) is not what layers.sh reports (>)"
[ "$status" = 1 ] || fail "layers.sh ends with status $status where it reports lines"
find crates -name '*_*' -exec rm {} +
"$layers" "$folder" || fail "layers.sh fails where it reports no line"

# wrong LINE WORDS: layers.sh must report this line of the crates.txt that is given, in these words, and no other
wrong() {
    cat >crates.txt
    if "$layers" "$folder" >found; then fail "layers.sh takes a crates.txt whose line $1 is wrong"; fi
    if [ "$(cut -d: -f1,2 found)" != "crates.txt:$1" ] || ! grep -qF "$2" found; then
        cat crates.txt found >&2
        fail "of the crates.txt above, layers.sh does not report line $1 alone, with '$2'"
    fi
}
wrong 5 'rate names shop of the later layer "shops"' <<'END'
# NAME: the crates that it uses

## numbers: what everything is counted in
ticks:
rate: ticks shop
## shops: who counts
shop: ticks
END
wrong 2 'rate names ticks, which is not above it' <<'END'
## numbers
rate: ticks
ticks:
END
wrong 3 'rate names tickets, which is not listed' <<'END'
## numbers
ticks:
rate: tickets io
END
wrong 2 'ticks stands under no heading' <<'END'
# NAME: the crates that it uses
ticks:
## numbers
rate: ticks
END
