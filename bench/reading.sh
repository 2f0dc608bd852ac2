#!/usr/bin/env bash
# What reading costs. First a document as editors write it (prefixes, declarations, comments, labels and annotated subsumptions of n
# classes), and one that has every construct, with expressions nested 256 deep: the seconds of `condor classify` and of `wc -w` on the
# same file, the best of three each, their ratio, and the peak memory as a multiple of the file. Then one string and one comment of some bytes and of four times as many, fed a byte at a time through a pipe:
# the ratio of the two times. It judges nothing. Needs GNU time, dd and awk.
#
#   bench/reading.sh [classes, 230000] [bytes of the string and of the comment, 2500000]
set -eu
. "$(dirname "$0")/measure.sh"
classes=${1:-230000}
bytes=${2:-2500000}

document() {
  awk -v n="$1" 'BEGIN {
    print "Prefix(:=<http://example.org/terms#>)"
    print "Prefix(owl:=<http://www.w3.org/2002/07/owl#>)"
    print "Prefix(rdfs:=<http://www.w3.org/2000/01/rdf-schema#>)"
    print "Prefix(xsd:=<http://www.w3.org/2001/XMLSchema#>)"
    print "\n\nOntology(<http://example.org/terms> <http://example.org/terms/1.0>"
    print "Annotation(rdfs:comment \"A \\\"large\\\" terminology (#1)\"^^xsd:string)\n"
    for (i = 0; i < n; i++) printf "Declaration(Class(:Term_%d))\n", i
    for (i = 1; i < n; i++) {
      printf "\n# Class: :Term_%d (term %d)\n\n", i, i
      printf "AnnotationAssertion(rdfs:label :Term_%d \"term %d\"@en)\n", i, i
      printf "SubClassOf(Annotation(rdfs:comment \"as \\\"stated\\\" in part %d\") :Term_%d :Term_%d)\n", i % 17, i, int((i - 1) / 10)
    }
    print ")"
  }'
}

# Every axiom and every class expression for each of n / 10 classes, and an expression nested 256 deep for each 500th.
constructs() {
  awk -v n="$1" 'BEGIN {
    for (i = 0; i < 256; i++) { open = open "ObjectComplementOf("; close_ = close_ ")" }
    print "Prefix(:=<http://example.org/terms#>)\nOntology(<http://example.org/terms>"
    for (i = 1; i < n / 10; i++) {
      printf "SubClassOf(:C%d ObjectSomeValuesFrom(:r%d ObjectIntersectionOf(:C%d ObjectAllValuesFrom(:s :C%d))))\n", i, i % 40, int(i / 3), int(i / 7)
      printf "EquivalentClasses(:D%d ObjectUnionOf(:C%d ObjectComplementOf(:C%d)))\n", i, i, int(i / 5)
      printf "DisjointClasses(Annotation(rdfs:comment \"apart\") :C%d :D%d)\nDisjointUnion(:E%d :C%d :D%d)\n", i, i, i, i, i
      printf "SubObjectPropertyOf(:r%d :s)\nEquivalentObjectProperties(:r%d :t%d)\nObjectPropertyDomain(:r%d :C%d)\nObjectPropertyRange(:s :E%d)\n", i % 40, i % 40, i % 40, i % 40, i, i
      if (i % 500 == 0) printf "SubClassOf(:C%d %s:C%d%s)\n", i, open, i, close_
    }
    print ")"
  }'
}

# A document of one annotation with a string, or of one comment, of so many bytes.
string() { printf 'Ontology(Annotation(<x:a> "'; head -c "$1" /dev/zero | tr '\0' 'a'; printf '"))'; }
comment() { printf 'Ontology(#'; head -c "$1" /dev/zero | tr '\0' 'a'; printf '\n)'; }

# The seconds of one run that is fed a byte at a time.
fed_by_bytes() {
  local start=$EPOCHREALTIME
  dd if="$1" bs=1 status=none | "$program" classify >"$folder/out"
  echo "$start $EPOCHREALTIME" | awk '{ printf "%.4f\n", $2 - $1 }'
}

grow() {
  "$1" "$2" >"$folder/small.ofn"
  "$1" "$(($2 * 4))" >"$folder/large.ofn"
  echo "$1 $2 $(fed_by_bytes "$folder/small.ofn") $(fed_by_bytes "$folder/large.ofn")" | awk '{
    printf "%-10s %9d bytes %7.3f s   %9d bytes %7.3f s   ratio %.1f\n", $1, $2, $3, $2 * 4, $4, ($3 > 0 ? $4 / $3 : 0)
  }'
}

read_beside_words() {
  "$1" "$classes" >"$folder/document.ofn"
  echo "$1 $(stat -c %s "$folder/document.ofn") $(measure "$folder/document.ofn" "$program" classify) $(measure "$folder/document.ofn" wc -w)" | awk '{
    printf "%-10s %9.1f MB   condor %.3f s   wc -w %.3f s   ratio %.1f   peak %.1f MB, %.1f times the document\n",
      $1, $2 / 1e6, $3, $5, ($5 > 0 ? $3 / $5 : 0), $4 * 1024 / 1e6, $4 * 1024 / $2
  }'
}

read_beside_words document
read_beside_words constructs
grow string "$bytes"
grow comment "$bytes"
