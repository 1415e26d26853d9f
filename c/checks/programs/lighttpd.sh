# Pages by HTTP/2, whose headers are packed by XXH32, and again by their ETag.
# Debian: 12 13
# packages: lighttpd curl python3
port=$(python3 -c 'import socket; probe = socket.socket(); probe.bind(("127.0.0.1", 0)); print(probe.getsockname()[1])')
mkdir pages
echo 'a page' > pages/page.txt
touch -d 2000-01-01 pages/page.txt
cat > conf <<END
server.document-root = "$PWD/pages"
server.bind = "127.0.0.1"
server.port = $port
server.feature-flags = ("server.h2c" => "enable", "server.h2proto" => "enable")
mimetype.assign = (".txt" => "text/plain")
END
lighttpd -D -f conf 2> log &
trap 'kill $!; wait $! || :' EXIT
page=http://127.0.0.1:$port/page.txt
for _ in $(seq 100); do
    curl -s --noproxy '*' -o first "$page" && break
    sleep 0.1
done
cat first
curl -sI --noproxy '*' --http2-prior-knowledge "$page" | grep -ciE '^(HTTP/2 200|etag)'
curl -sI --noproxy '*' --http2-prior-knowledge -H 'If-None-Match: "none"' "$page" | grep '^HTTP/2 200'
