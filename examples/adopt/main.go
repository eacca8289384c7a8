// A program on groupcache that has its values from peer_front, in front of its own getters, and that works without it.
//
//	adopt [-serve :9000] [-peers http://10.0.0.1:8001,http://10.0.0.2:8001,http://10.0.0.3:8001] KEY ..
//
// It serves its getter at /values/, for the servers to ask, and prints the value of each key. It calls the getter itself if it has
// no servers, and for each key that they give no value for.
package main

import (
	"context"
	"flag"
	"fmt"
	"log"
	"net/http"
	"strings"

	"github.com/golang/groupcache"
	"yiqonesh.example/peerfront"
)

// color is a getter as programs have them.
func color(_ context.Context, key string) ([]byte, error) {
	value, ok := map[string]string{"red": "#ff0000", "blue": "#0000ff"}[key]
	if !ok {
		return nil, peerfront.ErrNotFound
	}
	return []byte(value), nil
}

func main() {
	serve := flag.String("serve", "", "the address at which the getter is served; the program then goes on until it is ended")
	peers := flag.String("peers", "", "the servers, with commas between them")
	flag.Parse()
	getter := peerfront.Tagged(color)
	transport := peerfront.Watch(peerfront.Transport(), func(m peerfront.Miss) { log.Printf("no value: %+v", m) })
	// This program is no peer itself, so its own address is in no list.
	pool := groupcache.NewHTTPPoolOpts("http://self.invalid", nil)
	pool.Transport = func(context.Context) http.RoundTripper { return transport }
	pool.Set(strings.FieldsFunc(*peers, func(c rune) bool { return c == ',' })...)
	colors := groupcache.NewGroup("colors", 64<<20, groupcache.GetterFunc(
		func(ctx context.Context, key string, dest groupcache.Sink) error {
			value, err := getter(ctx, key)
			if err != nil {
				return err
			}
			return dest.SetBytes(value)
		}))
	for _, key := range flag.Args() {
		var value []byte
		err := colors.Get(context.Background(), key, groupcache.AllocatingByteSliceSink(&value))
		if err == nil {
			value, err = peerfront.Untag(value)
		}
		fmt.Println(key, string(value), err)
	}
	if *serve != "" {
		http.Handle("/values/", http.StripPrefix("/values/", peerfront.Origin{"colors": getter}))
		log.Fatal(http.ListenAndServe(*serve, nil))
	}
}
