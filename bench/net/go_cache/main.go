// go_cache serves golang/groupcache's own HTTPPool over one group whose getter asks an HTTP service, as the thing to be compared with:
// go_cache -addr ADDRESS GROUP=URL.
package main

import (
	"context"
	"flag"
	"fmt"
	"io"
	"log"
	"net/http"
	"net/url"
	"strings"
	"time"

	"github.com/golang/groupcache"
)

func main() {
	addr := flag.String("addr", "", "the address to serve")
	bytes := flag.Int64("cache", 64<<20, "the bytes of the cache")
	flag.Parse()
	name, prefix, _ := strings.Cut(flag.Arg(0), "=")
	client := &http.Client{
		Timeout:   10 * time.Second,
		Transport: &http.Transport{MaxIdleConnsPerHost: 1024, DisableCompression: true},
	}
	pool := groupcache.NewHTTPPoolOpts("http://"+*addr, nil)
	groupcache.NewGroup(name, *bytes, groupcache.GetterFunc(func(ctx context.Context, key string, dest groupcache.Sink) error {
		response, err := client.Get(prefix + url.PathEscape(key))
		if err != nil {
			return err
		}
		defer response.Body.Close()
		value, err := io.ReadAll(response.Body)
		if err != nil {
			return err
		}
		if response.StatusCode != 200 {
			return fmt.Errorf("origin answered %d", response.StatusCode)
		}
		return dest.SetBytes(value)
	}))
	log.Fatal(http.ListenAndServe(*addr, pool))
}
