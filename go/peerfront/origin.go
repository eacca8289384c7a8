package peerfront

import (
	"context"
	"errors"
	"net/http"
	"net/url"
	"sort"
	"strconv"
	"strings"
)

// MaxValue is the most bytes of a value that peer_front takes.
const MaxValue = 1 << 20

// ErrNotFound is what a getter returns for a key that it does not have, also wrapped. peer_front answers it with the text
// "no such key", and asks again for each request.
var ErrNotFound = errors.New("no such key")

// A Getter gives the value of a key. It may be called for several keys at once. The context ends with the request, as when
// peer_front waits no longer.
type Getter func(ctx context.Context, key string) ([]byte, error)

// Origin is an HTTP service over a getter for each group. It answers GET and HEAD of GROUP?k=KEY, below the path at which it is
// mounted:
//
//	http.Handle("/values/", http.StripPrefix("/values/", peerfront.Origin{"colors": color}))
//
// peer_front is told of it by [Origin.Words]. The key stands in the query, which no handler of Go's library cleans, so it may
// hold any bytes.
//
// A reply always has a length and never a coding. It is
//
//   - 200 with the value,
//   - 404 for [ErrNotFound], and for a group that it does not have,
//   - 504 for an error that wraps [context.DeadlineExceeded],
//   - 507 for a value of more than [MaxValue] bytes,
//   - 500 for another error, with its text,
//   - 400 for a query that is not k=KEY, and 405 for another method.
type Origin map[string]Getter

// Words gives the words of peer_front's command line for the groups of the origin, sorted. The base is the URL at which it is
// mounted, such as "http://10.0.0.7:9000/values/".
func (o Origin) Words(base string) []string {
	words := make([]string, 0, len(o))
	for group := range o {
		words = append(words, group+"="+strings.TrimSuffix(base, "/")+"/"+url.PathEscape(group)+"?k=")
	}
	sort.Strings(words)
	return words
}

// ServeHTTP answers one request, as [Origin] says.
func (o Origin) ServeHTTP(w http.ResponseWriter, r *http.Request) {
	if r.Method != http.MethodGet && r.Method != http.MethodHead {
		w.Header().Set("Allow", "GET, HEAD")
		reply(w, http.StatusMethodNotAllowed, "method not allowed\n")
		return
	}
	getter, ok := o[strings.Trim(r.URL.Path, "/")]
	if !ok {
		reply(w, http.StatusNotFound, "no such group\n")
		return
	}
	key, ok := keyOf(r.URL.RawQuery)
	if !ok {
		reply(w, http.StatusBadRequest, "the query is not k=KEY\n")
		return
	}
	value, err := getter(r.Context(), key)
	switch {
	case errors.Is(err, ErrNotFound):
		reply(w, http.StatusNotFound, "no such key\n")
	case errors.Is(err, context.DeadlineExceeded):
		reply(w, http.StatusGatewayTimeout, err.Error()+"\n")
	case err != nil:
		reply(w, http.StatusInternalServerError, err.Error()+"\n")
	case len(value) > MaxValue:
		reply(w, http.StatusInsufficientStorage, "value too long\n")
	default:
		write(w, http.StatusOK, "application/octet-stream", value)
	}
}

// keyOf gives the key of a query. A plus is a plus: peer_front escapes every byte but letters, digits and -._~.
func keyOf(query string) (string, bool) {
	if !strings.HasPrefix(query, "k=") {
		return "", false
	}
	key, err := url.PathUnescape(query[len("k="):])
	return key, err == nil
}

func reply(w http.ResponseWriter, status int, text string) {
	write(w, status, "text/plain; charset=utf-8", []byte(text))
}

func write(w http.ResponseWriter, status int, kind string, content []byte) {
	w.Header().Set("Content-Type", kind)
	w.Header().Set("Content-Length", strconv.Itoa(len(content)))
	w.WriteHeader(status)
	w.Write(content)
}
