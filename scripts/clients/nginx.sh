#!/bin/sh
# The memcached_pass of nginx, with connections kept: nginx.sh PORT
port=$1
work=$(mktemp -d)
chmod 755 "$work"
web=$((20000 + $$ % 20000))
cat > "$work/conf" <<END
daemon off; pid $work/pid; error_log $work/error.log info; worker_processes 1;
events { worker_connections 256; }
http {
    access_log off;
    client_body_temp_path $work/b; proxy_temp_path $work/p; fastcgi_temp_path $work/f; uwsgi_temp_path $work/u; scgi_temp_path $work/s;
    upstream cache { server 127.0.0.1:$port; keepalive 8; }
    server {
        listen 127.0.0.1:$web;
        location / { set \$memcached_key "page:\$uri"; memcached_pass cache; default_type text/html; error_page 404 502 504 = @behind; memcached_read_timeout 5s; }
        location /gzip { set \$memcached_key "page:\$uri"; memcached_pass cache; memcached_gzip_flag 2; default_type text/html; }
        location @behind { return 200 "from behind"; }
    }
}
END
nginx -c "$work/conf" > "$work/out" 2>&1 &
server=$!
sleep 0.5
store() { { printf 'set page:%s %s 0 %s\r\n' "$1" "$2" "$(wc -c < "$3")"; cat "$3"; printf '\r\nquit\r\n'; } | nc -w 20 127.0.0.1 "$port" > /dev/null; }
echo '<p>one</p>' > "$work/one"
head -c 900000 /dev/zero | tr '\0' x > "$work/large"
gzip -c "$work/one" > "$work/one.gz"
store /one 0 "$work/one"
store /large 0 "$work/large"
store /gzip 2 "$work/one.gz"
: > "$work/empty"
store /empty 0 "$work/empty"
ask() { curl -s -m 20 -o "$work/got" -w '%{http_code}' "$@"; }
echo "hit: $(ask http://127.0.0.1:$web/one), $(cmp "$work/got" "$work/one" && echo equal)"
echo "hit again (the same connection): $(ask http://127.0.0.1:$web/one), $(cmp "$work/got" "$work/one" && echo equal)"
echo "miss: $(ask http://127.0.0.1:$web/none), $(cat "$work/got")"
echo "900000 bytes: $(ask http://127.0.0.1:$web/large), $(cmp "$work/got" "$work/large" && echo equal)"
echo "empty: $(ask http://127.0.0.1:$web/empty), $(wc -c < "$work/got")"
echo "gzip flag: $(ask --compressed http://127.0.0.1:$web/gzip), $(cmp "$work/got" "$work/one" && echo equal)"
echo "a URI of 240: $(ask "http://127.0.0.1:$web/$(head -c 240 /dev/zero | tr '\0' k)"), $(cat "$work/got")"
echo "a URI of 300: $(ask "http://127.0.0.1:$web/$(head -c 300 /dev/zero | tr '\0' k)"), $(cat "$work/got")"
echo "a URI of 3000: $(ask "http://127.0.0.1:$web/$(head -c 3000 /dev/zero | tr '\0' k)"), $(cat "$work/got")"
echo "a URI with a space and a line end: $(ask "http://127.0.0.1:$web/a%20b%0d%0aset%20x%200%200%201"), $(cat "$work/got")"
echo "hit after these: $(ask http://127.0.0.1:$web/one), $(cmp "$work/got" "$work/one" && echo equal)"
sed 's/^[^]]*\] [0-9#]*: //; s/^/log: /' "$work/error.log" | grep -v notice | cut -c1-200
kill $server; wait $server
rm -r "$work"
