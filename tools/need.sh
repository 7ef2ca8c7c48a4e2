#!/bin/sh
# Installs those of the named tools that are missing (Debian).
set -eu
for tool in "$@"; do
    if command -v "$tool" > /dev/null; then continue; fi
    packages=$tool
    if [ "$tool" = gcc ]; then packages="gcc libc6-dev"; fi
    apt-get update -qq
    apt-get install -y -qq $packages
done
