#!/usr/bin/env bash
# Puts both proved programs, the examples, the manual page, the completions of shells and what editors have into a folder:
# tools/install.sh FOLDER
set -eu
cd "$(dirname "$0")/.."
to=$1
install -d "$to/bin" "$to/share/man/man1" "$to/share/nuchapay/examples/races" "$to/share/nuchapay/examples/swift"
install -m 755 crates/swiftrun/out/swiftrun crates/nuchapay/out/nuchapay "$to/bin"
install -m 644 docs/nuchapay.1 "$to/share/man/man1"
install -m 644 examples/*.actors "$to/share/nuchapay/examples"
install -m 644 examples/races/*.actors "$to/share/nuchapay/examples/races"
install -m 644 examples/swift/*.swift "$to/share/nuchapay/examples/swift"
# Where bash, zsh and fish look; bash wants the name of the program.
for program in swiftrun nuchapay; do
    install -D -m 644 "completions/$program.bash" "$to/share/bash-completion/completions/$program"
    install -D -m 644 "completions/_$program" "$to/share/zsh/site-functions/_$program"
    install -D -m 644 "completions/$program.fish" "$to/share/fish/vendor_completions.d/$program.fish"
done
while read -r file; do
    install -D -m 644 "$file" "$to/share/nuchapay/$file"
done < <(find editors -type f)
echo "swiftrun and nuchapay are in $to/bin, the examples in $to/share/nuchapay/examples, and what editors have in $to/share/nuchapay/editors"
