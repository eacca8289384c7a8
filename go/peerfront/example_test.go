package peerfront_test

import (
	"context"
	"fmt"
	"log"
	"net/http"

	"yiqonesh.example/peerfront"
)

// colors is what a program has: values by their keys.
var colors = map[string]string{"red": "#ff0000", "blue": "#0000ff"}

func color(_ context.Context, key string) ([]byte, error) {
	value, ok := colors[key]
	if !ok {
		return nil, peerfront.ErrNotFound
	}
	return []byte(value), nil
}

// A service of the getters of a program, and the words by which peer_front is told of it.
func ExampleOrigin() {
	origin := peerfront.Origin{"colors": color}
	http.Handle("/values/", http.StripPrefix("/values/", origin))
	fmt.Println(origin.Words("http://10.0.0.7:9000/values/"))
	// Output: [colors=http://10.0.0.7:9000/values/colors?k=]
}

// What groupcache's pool asks its peers by, which logs what it gets no value for.
func ExampleWatch() {
	transport := peerfront.Watch(peerfront.Transport(), func(m peerfront.Miss) {
		log.Printf("%s: %s/%q: %d %s %v", m.Peer, m.Group, m.Key, m.Status, m.Text, m.Err)
	})
	// pool.Transport of a groupcache.HTTPPool
	poolTransport := func(context.Context) http.RoundTripper { return transport }
	_ = poolTransport
}

// A missing key that is kept like a value.
func ExampleTagged() {
	getter := peerfront.Tagged(color)
	for _, key := range []string{"red", "mauve"} {
		tagged, _ := getter(context.Background(), key)
		value, err := peerfront.Untag(tagged)
		fmt.Printf("%s: %q %v\n", key, value, err)
	}
	// Output:
	// red: "#ff0000" <nil>
	// mauve: "" no such key
}
