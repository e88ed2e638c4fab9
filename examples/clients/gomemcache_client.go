// What gomemcache does over HOST PORT (Debian: golang-go, golang-github-bradfitz-gomemcache-dev). A line for each: its name, and yes or no.
package main

import (
	"bytes"
	"fmt"
	"os"
	"time"

	"github.com/bradfitz/gomemcache/memcache"
)

var client = memcache.New(os.Args[1] + ":" + os.Args[2])

func tried(name string, errs ...error) {
	for _, err := range errs {
		if err != nil {
			fmt.Printf("%s no: %q\n", name, err)
			return
		}
	}
	fmt.Println(name, "yes")
}

func item(key, value string) *memcache.Item {
	return &memcache.Item{Key: "go:" + key, Value: []byte(value)}
}

// No error where the call ended as wanted.
func wants(wanted, got error) error {
	if wanted == got {
		return nil
	}
	return fmt.Errorf("%v instead of %v", got, wanted)
}

func reads(key, wanted string) error {
	got, err := client.Get("go:" + key)
	if err == nil && string(got.Value) != wanted {
		return fmt.Errorf("read %q", got.Value)
	}
	return err
}

func missing(key string) error {
	_, err := client.Get("go:" + key)
	return wants(memcache.ErrCacheMiss, err)
}

func counts(wanted uint64) func(uint64, error) error {
	return func(got uint64, err error) error {
		if err == nil && got != wanted {
			return fmt.Errorf("%d", got)
		}
		return err
	}
}

func cas() {
	old, err := client.Get("go:a")
	if err != nil {
		tried("cas", err)
		return
	}
	old.Value = []byte("by cas")
	first := client.CompareAndSwap(old)
	tried("cas", first, wants(memcache.ErrCASConflict, client.CompareAndSwap(old)), reads("a", "by cas"))
}

func expiry() {
	short, kept := item("short", "x"), item("kept", "x")
	short.Expiration, kept.Expiration = 1, 1
	errs := []error{client.Set(short), client.Set(kept), client.Touch("go:kept", 60)}
	time.Sleep(2100 * time.Millisecond)
	tried("expiry", append(errs, missing("short"), reads("kept", "x"))...)
}

func many() {
	keys, errs := []string{}, []error{}
	for at := 0; at < 100; at++ {
		keys = append(keys, fmt.Sprintf("go:many:%d", at))
		errs = append(errs, client.Set(item(fmt.Sprintf("many:%d", at), fmt.Sprint(at))))
	}
	got, err := client.GetMulti(keys)
	if err == nil && (len(got) != 100 || string(got["go:many:42"].Value) != "42") {
		err = fmt.Errorf("read %d items", len(got))
	}
	tried("many", append(errs, err)...)
}

func main() {
	client.Timeout = 5 * time.Second
	for _, key := range []string{"a", "b", "n", "none"} {
		client.Delete("go:" + key)
	}
	large := string(bytes.Repeat([]byte("0123456789"), 100000))
	tried("set", client.Set(item("a", "one")))
	tried("get", reads("a", "one"), missing("none"))
	tried("add", client.Add(item("b", "two")), wants(memcache.ErrNotStored, client.Add(item("b", "three"))), reads("b", "two"))
	tried("replace", client.Replace(item("b", "four")), wants(memcache.ErrNotStored, client.Replace(item("none", "x"))), reads("b", "four"))
	cas()
	tried("incr", client.Set(item("n", "41")), counts(42)(client.Increment("go:n", 1)))
	tried("decr", counts(0)(client.Decrement("go:n", 50)))
	tried("delete", client.Delete("go:b"), wants(memcache.ErrCacheMiss, client.Delete("go:b")))
	tried("touch", client.Touch("go:a", 60), wants(memcache.ErrCacheMiss, client.Touch("go:none", 60)))
	expiry()
	tried("large", client.Set(item("large", large)), reads("large", large))
	many()
	tried("flush_all", client.FlushAll())
}
