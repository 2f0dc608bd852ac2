#!/usr/bin/env bash
# How the time and the memory of `condor classify` grow with documents of several forms, each for a small and a large size in one run.
# Prints the seconds (the best of three), the ratio of the two times and the peak memory. It judges nothing.
# Needs GNU time and awk.
#
#   bench/growth.sh [form ..]
#
# The forms: generated, disjoint, operands, roles, flat, chain, universals, closing, fillers, sources, intersection, union, choices,
# pigeonholes, levels, levels_down. Without words all of them.
set -eu
. "$(dirname "$0")/measure.sh"

# The document of the trial for n: existentials, a role hierarchy, unions, and a class in n without a member.
generated() {
  awk -v n="$1" 'BEGIN {
    print "Prefix(:=<urn:trial:>)\nOntology(\nSubObjectPropertyOf(:R :S)\nSubClassOf(ObjectSomeValuesFrom(:S :D) :E)"
    for (i = 0; i < n; i++) {
      printf "SubClassOf(:A%d ObjectUnionOf(:B%d :C%d))\nSubClassOf(:B%d :D)\nSubClassOf(:C%d :D)\n", i, i, i, i, i
      printf "SubClassOf(:U%d :A%d)\nDisjointClasses(:U%d :D)\n", i, i, i
      if (i > 0) printf "SubClassOf(:A%d ObjectSomeValuesFrom(:R :A%d))\n", i, i - 1
    }
    print ")"
  }'
}

# n classes apart from D, and 2,000 classes below D.
disjoint() {
  awk -v n="$1" 'BEGIN {
    print "Ontology("
    for (i = 0; i < n; i++) printf "DisjointClasses(<x:U%d> <x:D>)\n", i
    for (i = 0; i < 2000; i++) printf "SubClassOf(<x:C%d> <x:D>)\n", i
    print ")"
  }'
}

# One disjointness of n classes.
operands() {
  awk -v n="$1" 'BEGIN {
    print "Ontology(\nDisjointClasses("
    for (i = 0; i < n; i++) printf "<x:C%d>\n", i
    print "))"
  }'
}

# n roles without a pair, each in an existential.
roles() {
  awk -v n="$1" 'BEGIN {
    print "Ontology("
    for (i = 0; i < n; i++) printf "SubClassOf(<x:A> ObjectSomeValuesFrom(<x:r%d> <x:B>))\n", i
    print ")"
  }'
}

# n classes under one.
flat() {
  awk -v n="$1" 'BEGIN { print "Ontology("; for (i = 0; i < n; i++) printf "SubClassOf(<x:C%d> <x:Top>)\n", i; print ")" }'
}

# A chain of n classes.
chain() {
  awk -v n="$1" 'BEGIN { print "Ontology("; for (i = 1; i < n; i++) printf "SubClassOf(<x:C%d> <x:C%d>)\n", i - 1, i; print ")" }'
}

# A class with one existential and n universals over its role.
universals() {
  awk -v n="$1" 'BEGIN {
    print "Ontology(\nSubClassOf(<x:A> ObjectSomeValuesFrom(<x:r> <x:B>))"
    for (i = 0; i < n; i++) printf "SubClassOf(<x:A> ObjectAllValuesFrom(<x:r> <x:C%d>))\n", i
    print ")"
  }'
}

# n classes, each with four existentials over one role and a closing universal over the union of the four fillers, out of 40 fillers that
# are apart; and three defined classes: with none of two fillers, only with others, with one of some.
closing() {
  awk -v n="$1" 'BEGIN {
    print "Ontology(\nDisjointClasses("
    for (i = 0; i < 40; i++) printf "<x:F%d> ", i
    print ")"
    for (i = 0; i < n; i++) {
      union = ""
      for (j = 0; j < 4; j++) {
        f = (i * (j + 1) + j * 11) % 40
        printf "SubClassOf(<x:C%d> ObjectSomeValuesFrom(<x:r> <x:F%d>))\n", i, f
        union = union " <x:F" f ">"
      }
      printf "SubClassOf(<x:C%d> ObjectAllValuesFrom(<x:r> ObjectUnionOf(%s)))\n", i, union
    }
    print "EquivalentClasses(<x:None> ObjectComplementOf(ObjectSomeValuesFrom(<x:r> ObjectUnionOf(<x:F0> <x:F1>))))"
    printf "EquivalentClasses(<x:Only> ObjectAllValuesFrom(<x:r> ObjectUnionOf("
    for (i = 2; i < 40; i++) printf "<x:F%d> ", i
    print ")))"
    print "EquivalentClasses(<x:Some> ObjectSomeValuesFrom(<x:r> ObjectUnionOf(<x:F3> <x:F4> <x:F5>)))\n)"
  }'
}

# A class with n existentials over one role, of which each filler is below C; and what has such an edge to a C is in D.
fillers() {
  awk -v n="$1" 'BEGIN {
    print "Ontology("
    for (i = 0; i < n; i++) printf "SubClassOf(<x:A> ObjectSomeValuesFrom(<x:r> <x:B%d>))\nSubClassOf(<x:B%d> <x:C>)\n", i, i
    print "SubClassOf(ObjectSomeValuesFrom(<x:r> <x:C>) <x:D>)\n)"
  }'
}

# A class with existentials of one filler over n roles, each of which has a domain for that filler.
sources() {
  awk -v n="$1" 'BEGIN {
    print "Ontology("
    for (i = 0; i < n; i++) printf "SubClassOf(<x:A> ObjectSomeValuesFrom(<x:r%d> <x:B>))\nSubClassOf(ObjectSomeValuesFrom(<x:r%d> <x:B>) <x:D%d>)\n", i, i, i
    print ")"
  }'
}

# A class below n classes, and what is in all of these is in B.
intersection() {
  awk -v n="$1" 'BEGIN {
    print "Ontology(\nSubClassOf(ObjectIntersectionOf("
    for (i = 0; i < n; i++) printf "<x:C%d>\n", i
    print ") <x:B>)"
    for (i = 0; i < n; i++) printf "SubClassOf(<x:A> <x:C%d>)\n", i
    print ")"
  }'
}

# A class below the union of n classes, which are all below one.
union() {
  awk -v n="$1" 'BEGIN {
    print "Ontology(\nSubClassOf(<x:A> ObjectUnionOf("
    for (i = 0; i < n; i++) printf "<x:C%d>\n", i
    print "))"
    for (i = 0; i < n; i++) printf "SubClassOf(<x:C%d> <x:Top>)\n", i
    print ")"
  }'
}

# A class with one existential, whose filler is n times below a union of two.
choices() {
  awk -v n="$1" 'BEGIN {
    print "Ontology(\nSubClassOf(<x:A> ObjectSomeValuesFrom(<x:r> <x:B>))"
    for (i = 0; i < n; i++) printf "SubClassOf(<x:B> ObjectUnionOf(<x:L%d> <x:R%d>))\n", i, i
    print ")"
  }'
}

# n pigeons, each in one of n - 1 holes, no two of them in one: a class without a member, all places being named.
pigeonholes() {
  awk -v n="$1" 'BEGIN {
    print "Ontology("
    for (i = 0; i < n; i++) {
      printf "SubClassOf(<x:A> ObjectUnionOf("
      for (j = 0; j < n - 1; j++) printf "<x:P%dIn%d> ", i, j
      print "))"
    }
    for (j = 0; j < n - 1; j++)
      for (i = 0; i < n; i++)
        for (k = 0; k < i; k++) printf "DisjointClasses(<x:P%dIn%d> <x:P%dIn%d>)\n", k, j, i, j
    print ")"
  }'
}

# n levels, each a class below the union of two that are both below the class of the next level, from the first level to the last.
levels() {
  awk -v n="$1" 'BEGIN {
    print "Ontology("
    for (i = 0; i < n; i++) printf "SubClassOf(<x:X%d> ObjectUnionOf(<x:L%d> <x:R%d>))\nSubClassOf(<x:L%d> <x:X%d>)\nSubClassOf(<x:R%d> <x:X%d>)\n", i, i, i, i, i + 1, i, i + 1
    print ")"
  }'
}

# The same, from the last level to the first.
levels_down() {
  awk -v n="$1" 'BEGIN {
    print "Ontology("
    for (i = n - 1; i >= 0; i--) printf "SubClassOf(<x:X%d> ObjectUnionOf(<x:L%d> <x:R%d>))\nSubClassOf(<x:L%d> <x:X%d>)\nSubClassOf(<x:R%d> <x:X%d>)\n", i, i, i, i, i + 1, i, i + 1
    print ")"
  }'
}

compare() {
  local small large
  "$1" "$2" >"$folder/small.ofn"
  "$1" "$3" >"$folder/large.ofn"
  small=$(measure "$folder/small.ofn" "$program" classify)
  large=$(measure "$folder/large.ofn" "$program" classify)
  echo "$1 $2 $small $3 $large" | awk '{
    printf "%-12s %6d %7.3f s %7.1f MB   %6d %7.3f s %7.1f MB   ratio %.1f\n", $1, $2, $3, $4 / 1024, $5, $6, $7 / 1024, ($3 > 0 ? $6 / $3 : 0)
  }'
}

for form in "${@:-all}"; do
  case $form in
    all) exec "$0" generated disjoint operands roles flat chain universals closing fillers sources intersection union choices pigeonholes levels levels_down ;;
    generated) compare generated 1250 5000; compare generated 5000 20000 ;;
    disjoint | operands | roles) compare "$form" 10000 40000 ;;
    flat) compare flat 25000 100000 ;;
    chain) compare chain 1000 4000 ;;
    universals) compare universals 6 8 ;;
    closing) compare closing 100 400 ;;
    fillers | sources) compare "$form" 2500 10000 ;;
    intersection | union) compare "$form" 1000 4000 ;;
    choices) compare choices 8 16 ;;
    pigeonholes) compare pigeonholes 4 5 ;;
    levels | levels_down) compare "$form" 15 60 ;;
    *) echo "no form $form" >&2; exit 2 ;;
  esac
done
