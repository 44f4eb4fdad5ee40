// Uses gomemcache as its documentation does (https://pkg.go.dev/github.com/bradfitz/gomemcache/memcache).
package main

import (
	"bufio"
	"bytes"
	"fmt"
	"net"
	"os"
	"strings"
	"sync"
	"time"

	"github.com/bradfitz/gomemcache/memcache"
)

const host = "127.0.0.1"

var passed, failed int

// about says what the checks that follow are about.
func about(what string) {
	fmt.Println(what)
}

// gives counts whether a call gave what is wanted of it.
func gives(call string, seen, wanted interface{}) {
	if fmt.Sprint(seen) == fmt.Sprint(wanted) {
		passed++
		return
	}
	failed++
	fmt.Printf("FAILED called %s\n       expected %.300v\n       seen %.300v\n", call, wanted, seen)
}

// value gives the value of a key, or what the client says in its place.
func value(c *memcache.Client, key string) string {
	item, err := c.Get(key)
	if err != nil {
		return err.Error()
	}
	return string(item.Value)
}

// number gives what a counter has become, or what the client says in its place.
func number(now uint64, err error) string {
	if err != nil {
		return err.Error()
	}
	return fmt.Sprint(now)
}

// countUp adds one to a counter, each time in a loop of Get and CompareAndSwap, and gives how often another was first.
func countUp(c *memcache.Client, key string, times int) (refused int) {
	for i := 0; i < times; i++ {
		for {
			item, err := c.Get(key)
			if err != nil {
				return -1
			}
			var now int
			fmt.Sscan(string(item.Value), &now)
			item.Value = []byte(fmt.Sprint(now + 1))
			if c.CompareAndSwap(item) == nil {
				break
			}
			refused++
		}
	}
	return refused
}

// restart has the server killed and started anew, with nothing in it.
func restart(control string) string {
	link, err := net.DialTimeout("tcp", host+":"+control, 10*time.Second)
	if err != nil {
		return err.Error()
	}
	defer link.Close()
	fmt.Fprintln(link, "restart")
	line, _ := bufio.NewReader(link).ReadString('\n')
	return strings.TrimSpace(line)
}

// comes makes a call until it gives what is wanted, for ten seconds at most.
func comes(call func() string, wanted string) bool {
	for end := time.Now().Add(10 * time.Second); time.Now().Before(end); time.Sleep(100 * time.Millisecond) {
		if call() == wanted {
			return true
		}
	}
	return false
}

func main() {
	port, silent, control := os.Args[1], os.Args[2], os.Args[3]
	c := memcache.New(host + ":" + port)
	c.Timeout = 5 * time.Second

	about("Set, Get, Delete, Add, Replace")
	gives("Set(foo)", c.Set(&memcache.Item{Key: "foo", Value: []byte("my value"), Flags: 1234}), nil)
	gives("Get(foo)", value(c, "foo"), "my value")
	item, err := c.Get("foo")
	gives("Get(foo).Flags", fmt.Sprint(item.Flags, err), "1234 <nil>")
	gives("Get(none)", value(c, "none"), memcache.ErrCacheMiss)
	gives("Add(foo)", c.Add(&memcache.Item{Key: "foo", Value: []byte("x")}), memcache.ErrNotStored)
	gives("Add(bar)", c.Add(&memcache.Item{Key: "bar", Value: []byte("x")}), nil)
	gives("Replace(bar)", c.Replace(&memcache.Item{Key: "bar", Value: []byte("y")}), nil)
	gives("Replace(none)", c.Replace(&memcache.Item{Key: "none", Value: []byte("y")}), memcache.ErrNotStored)
	gives("Get(bar)", value(c, "bar"), "y")
	gives("Delete(bar)", c.Delete("bar"), nil)
	gives("Delete(bar)", c.Delete("bar"), memcache.ErrCacheMiss)
	gives("Set(empty)", c.Set(&memcache.Item{Key: "empty"}), nil)
	gives("Get(empty)", value(c, "empty"), "")
	every := make([]byte, 512)
	for i := range every {
		every[i] = byte(i)
	}
	gives("Set(every)", c.Set(&memcache.Item{Key: strings.Repeat("k", 250), Value: every}), nil)
	item, err = c.Get(strings.Repeat("k", 250))
	gives("Get(every)", err == nil && bytes.Equal(item.Value, every), true)

	about("Increment, Decrement")
	gives("Set(num)", c.Set(&memcache.Item{Key: "num", Value: []byte("42")}), nil)
	gives("Increment(num, 8)", number(c.Increment("num", 8)), "50")
	gives("Decrement(num, 49)", number(c.Decrement("num", 49)), "1")
	gives("Decrement(num, 5)", number(c.Decrement("num", 5)), "0")
	gives("Increment(none, 1)", number(c.Increment("none", 1)), memcache.ErrCacheMiss)
	gives("Increment(foo, 1)", number(c.Increment("foo", 1)), "memcache: client error: cannot increment or decrement non-numeric value")

	about("CompareAndSwap, and 4 loops of 100 side by side")
	gives("Set(shared)", c.Set(&memcache.Item{Key: "shared", Value: []byte("0")}), nil)
	mine, _ := c.Get("shared")
	other, _ := c.Get("shared")
	other.Value = []byte("1")
	gives("CompareAndSwap(other)", c.CompareAndSwap(other), nil)
	gives("CompareAndSwap(mine)", c.CompareAndSwap(mine), memcache.ErrCASConflict)
	gives("Delete(shared)", c.Delete("shared"), nil)
	gives("CompareAndSwap(mine)", c.CompareAndSwap(mine), memcache.ErrCacheMiss)
	gives("Set(shared)", c.Set(&memcache.Item{Key: "shared", Value: []byte("0")}), nil)
	var all sync.WaitGroup
	for i := 0; i < 4; i++ {
		all.Add(1)
		go func() {
			defer all.Done()
			countUp(c, "shared", 100)
		}()
	}
	all.Wait()
	gives("Get(shared)", value(c, "shared"), "400")

	about("GetMulti of 500 keys")
	keys := []string{"none"}
	for i := 0; i < 500; i++ {
		key := fmt.Sprint("many:", i)
		keys = append(keys, key)
		if c.Set(&memcache.Item{Key: key, Value: []byte("value of " + key)}) != nil {
			about("a Set failed")
		}
	}
	found, err := c.GetMulti(keys)
	right := 0
	for key, item := range found {
		if string(item.Value) == "value of "+key {
			right++
		}
	}
	gives("GetMulti(keys)", fmt.Sprint(right, err), "500 <nil>")

	about("expiry and Touch")
	gives("Set(brief)", c.Set(&memcache.Item{Key: "brief", Value: []byte("x"), Expiration: 1}), nil)
	gives("Set(kept)", c.Set(&memcache.Item{Key: "kept", Value: []byte("y"), Expiration: 1}), nil)
	gives("Set(past)", c.Set(&memcache.Item{Key: "past", Value: []byte("z"), Expiration: -1}), nil)
	gives("Get(past)", value(c, "past"), memcache.ErrCacheMiss)
	gives("Touch(kept)", c.Touch("kept", 100), nil)
	gives("Touch(none)", c.Touch("none", 100), memcache.ErrCacheMiss)
	time.Sleep(2200 * time.Millisecond)
	gives("Get(brief)", value(c, "brief"), memcache.ErrCacheMiss)
	gives("Get(kept)", value(c, "kept"), "y")

	about("what is refused")
	gives("Set(a key of 251)", c.Set(&memcache.Item{Key: strings.Repeat("k", 251), Value: every}), memcache.ErrMalformedKey)
	large := c.Set(&memcache.Item{Key: "large", Value: make([]byte, 2<<20)})
	gives("Set(large)", large != nil && strings.Contains(large.Error(), "object too large for cache"), true)
	gives("Set(large)", c.Set(&memcache.Item{Key: "large", Value: make([]byte, 1048000)}), nil)
	gives("Get(large)", len(value(c, "large")), 1048000)

	about("FlushAll")
	gives("FlushAll()", c.FlushAll(), nil)
	gives("Get(kept)", value(c, "kept"), memcache.ErrCacheMiss)

	about("after the server was killed and started anew")
	gives("restart()", restart(control), "done")
	again := func() string { return fmt.Sprint(c.Set(&memcache.Item{Key: "after", Value: []byte("x")})) }
	gives("Set(after)", comes(again, "<nil>"), true)
	gives("Get(after)", value(c, "after"), "x")

	about("time-outs")
	quiet := memcache.New(host + ":" + silent)
	quiet.Timeout = 300 * time.Millisecond
	start := time.Now()
	_, err = quiet.Get("a")
	gives("Get(a)", err != nil && time.Since(start) < 2*time.Second, true)

	fmt.Printf("%d passed, %d failed\n", passed, failed)
	if passed == 0 || failed != 0 {
		os.Exit(1)
	}
}
