#!/bin/sh
# Proves the library for C and all below it, and writes target/staticlib/libhirqazhom.a.
set -e
cd "$(dirname "$0")/../crates/hirqazhom"
rt lib
mkdir -p ../../target/staticlib
cp out/libhirqazhom.a ../../target/staticlib/
