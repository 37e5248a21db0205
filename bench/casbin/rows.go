// Another engine on the same rows: Debian's casbin for Go matches the 32 access rows of the benchmark's full tables for one
// request, UPDATE /tare by the last partner, whom the last row permits. bench/casbin/run.sh builds and runs it.
package main

import (
	"fmt"
	"os"
	"strconv"
	"time"

	"github.com/casbin/casbin"
	"github.com/casbin/casbin/model"
)

const (
	accessRows  = 32
	partners    = 24
	repetitions = 400
	calls       = 50
)

// The least that such rows need: three strings are compared.
const plain = `
[request_definition]
r = sub, obj, act
[policy_definition]
p = sub, obj, act
[policy_effect]
e = some(where (p.eft == allow))
[matchers]
m = r.obj == p.obj && r.sub == p.sub && r.act == p.act
`

// An access row: a subject of three kinds, a set of resources, permission bits and a period.
const whole = `
[request_definition]
r = uuid, role, connection, obj, act, clock
[policy_definition]
p = number, kind, sub, set, permission, first, last
[policy_effect]
e = some(where (p.eft == allow))
[matchers]
m = reaches(p.set, r.obj) && within(p.first, p.last, r.clock) && (p.kind == "uuid" && p.sub == r.uuid || p.kind == "role" && p.sub == r.role || p.kind == "connection" && p.sub == r.connection) && reaches(p.permission, r.act)
`

func stop(fault error) {
	fmt.Fprintln(os.Stderr, "casbin:", fault)
	os.Exit(1)
}

func number(value interface{}) uint64 {
	result, fault := strconv.ParseUint(value.(string), 10, 64)
	if fault != nil {
		stop(fault)
	}
	return result
}

// Whether the set has the bit. The engine makes every number a float64.
func reaches(arguments ...interface{}) (interface{}, error) {
	return number(arguments[0])&uint64(arguments[1].(float64)) != 0, nil
}

func within(arguments ...interface{}) (interface{}, error) {
	clock := uint64(arguments[2].(float64))
	return number(arguments[0]) <= clock && clock <= number(arguments[1]), nil
}

func engine(text string, rules [][]string) *casbin.Enforcer {
	definition, fault := model.NewModelFromString(text)
	if fault != nil {
		stop(fault)
	}
	enforcer, fault := casbin.NewEnforcer(definition)
	if fault != nil {
		stop(fault)
	}
	enforcer.AddFunction("reaches", reaches)
	enforcer.AddFunction("within", within)
	if added, fault := enforcer.AddPolicies(rules); !added || fault != nil {
		stop(fmt.Errorf("the rules are not taken: %v", fault))
	}
	return enforcer
}

func uuid(number int) string { return fmt.Sprintf("%032x", number) }

// A set has the bit of resource 0 lowest here, so that it fits a float64.
func bit(resource uint) uint64 { return 1 << resource }

const weight, tare, lamp, retrieve, update = 8, 9, 12, 2, 4

func rule(number int, kind, subject string, set, permission uint64) []string {
	return []string{strconv.Itoa(number), kind, subject, fmt.Sprint(set), fmt.Sprint(permission), "0", "4294967295"}
}

// The rows of the benchmark: every kind of subject in turn, for /weight and /lamp; the last is for the last partner and /tare.
func rules() (plainRules, wholeRules [][]string) {
	for i := 1; i < accessRows; i++ {
		kind, subject := "uuid", uuid(i)
		switch i % 4 {
		case 2:
			kind, subject = "role", fmt.Sprintf("%d/%d", i, i)
		case 3:
			kind, subject = "connection", "1"
		}
		// Of the plain rules no two may be the same.
		plainRules = append(plainRules, []string{uuid(i), "/weight", "retrieve"})
		wholeRules = append(wholeRules, rule(i, kind, subject, bit(weight)|bit(lamp), retrieve))
	}
	plainRules = append(plainRules, []string{uuid(partners), "/tare", "update"})
	wholeRules = append(wholeRules, rule(accessRows, "uuid", uuid(partners), bit(tare), update))
	return
}

// Nanoseconds of a request that is permitted, the least of the repetitions.
func measure(enforcer *casbin.Enforcer, request ...interface{}) float64 {
	least := time.Duration(1 << 62)
	for i := 0; i < repetitions; i++ {
		start := time.Now()
		for j := 0; j < calls; j++ {
			if permitted, fault := enforcer.Enforce(request...); !permitted || fault != nil {
				stop(fmt.Errorf("the request is not permitted: %v", fault))
			}
		}
		if taken := time.Since(start); taken < least {
			least = taken
		}
	}
	return float64(least.Nanoseconds()) / calls
}

func main() {
	plainRules, wholeRules := rules()
	simple := measure(engine(plain, plainRules), uuid(partners), "/tare", "update")
	all := measure(engine(whole, wholeRules), uuid(partners), "0/0", "1", bit(tare), update, 0)
	fmt.Printf("casbin: three strings compared %.0f ns, whole rows %.0f ns\n", simple, all)
}
