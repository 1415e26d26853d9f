# A repository of made-up packages, and apt with a root of its own: its cache is keyed and checked by XXH3. Where apt
# knows lz4 its lists are kept so.
# Debian: 12 13
# packages: apt
mkdir -p repository apt/lists/partial apt/cache/archives/partial
for i in $(seq 300); do
    printf 'Package: made-up-%d\nVersion: 1\nArchitecture: all\nMaintainer: nobody\nDescription: %d\n' $i $i
    printf 'Filename: ./%d.deb\nSize: %d\nSHA256: %064d\n\n' $i $i $i
done | gzip -n > repository/Packages.gz
: > apt/status
echo "deb [trusted=yes] file:$PWD/repository ./" > apt/list
cat > apt/conf <<END
Dir::State "$PWD/apt"; Dir::State::lists "lists"; Dir::State::status "$PWD/apt/status"; Dir::Cache "$PWD/apt/cache";
Dir::Etc::sourcelist "$PWD/apt/list"; Dir::Etc::sourceparts "/dev/null"; Acquire::GzipIndexes "true";
Acquire::IndexTargets::deb::Packages::KeepCompressedAs "lz4"; APT::Sandbox::User "root";
END
export APT_CONFIG=$PWD/apt/conf
apt-get -qq update
apt-cache gencaches
apt-cache dumpavail | grep -c '^Package: made-up-'
apt-cache show made-up-7
sha256sum apt/lists/*Packages* | cut -d ' ' -f 1
