# varnish in front of the service of bench/rivals.py, which sets the words in capitals.
vcl 4.1;
backend service { .host = "HOST"; .port = "PORT"; .max_connections = 1024; }
sub vcl_recv {
    set req.url = regsub(req.url, "^/_groupcache/echo", "");
    return (hash);
}
sub vcl_backend_response { set beresp.ttl = 1h; }
