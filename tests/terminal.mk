# The programs that tests/terminal.sh has beside the terminal, built below OUT.
#
#     make -f tests/terminal.mk OUT=FOLDER ARCHIVE=FILE
#
# A wrong terminal may have a variable that nobody reads: LENIENT=yes says nothing of that.

TERMINAL := examples/terminal
INCLUDE := $(or $(INCLUDE),include)
OURS := -std=c11 -D_GNU_SOURCE -O1 -g -Wall -Wextra -Werror -I$(INCLUDE) $(if $(LENIENT),-w)
SANITIZE := -fsanitize=address,undefined -fno-sanitize-recover=all
HEADERS := $(wildcard $(TERMINAL)/*.h tests/*.h $(INCLUDE)/*.h)

# The core is all but the front's files, and has no need of libcoap; its fronts are tests/hostile.c.
FRONT := front guard endpoint server request keys sessions waiting recent unacknowledged
CORE := $(filter-out $(FRONT),$(basename $(notdir $(wildcard $(TERMINAL)/*.c))))
HOSTILE := $(OURS) $(SANITIZE) -DFRONT_ENVIRONMENT=environ -DFRONT_SILENCE=6000
ON_DEVICE := $(patsubst %,$(TERMINAL)/%.c,terminal device store file fail journal chain sha256 log clock)

.PHONY: all
all: $(patsubst %,$(OUT)/%,attack early guard faults.so confined hostile device unread sha256 library.so)

$(OUT)/attack $(OUT)/early: $(OUT)/%: tests/%.c $(HEADERS)
	$(CC) $(OURS) $< -lssl -lcrypto -o $@

$(OUT)/guard: tests/guard.c $(TERMINAL)/guard.c $(TERMINAL)/fail.c $(HEADERS)
	$(CC) $(OURS) $(filter %.c,$^) -lcrypto -o $@

$(OUT)/faults.so: tests/faults.c
	$(CC) $(OURS) -shared -fPIC $< -ldl -o $@

$(OUT)/confined: tests/confined.c $(TERMINAL)/confine.c $(TERMINAL)/fail.c $(HEADERS)
	$(CC) $(OURS) $(filter %.c,$^) -o $@

$(OUT)/device: tests/device.c $(ON_DEVICE) $(HEADERS) $(ARCHIVE)
	$(CC) $(OURS) -fsanitize=undefined -fno-sanitize-recover=all -Wl,--wrap=pwrite,--wrap=pread $(filter %.c,$^) $(ARCHIVE) -o $@

$(OUT)/sha256: tests/sha256.c $(TERMINAL)/sha256.c $(HEADERS)
	$(CC) $(OURS) -fsanitize=undefined -fno-sanitize-recover=all $(filter %.c,$^) -lcrypto -o $@

# The library for tests/journal.py.
$(OUT)/library.so: $(ARCHIVE)
	$(CC) -shared -Wl,--whole-archive $< -Wl,--no-whole-archive -o $@

# The terminal, linked so that libcoap does not get its SSL_read. The terminal is there already.
$(OUT)/unread: $(OUT)/terminal
	echo '{ local: *; };' >$@.map
	$(CC) $(OUT)/terminal.objects/*.o $(ARCHIVE) -Wl,--version-script=$@.map -lcoap-3-openssl -lssl -lcrypto -o $@

$(OUT)/hostile: $(CORE:%=$(OUT)/hostile.objects/%.o) $(OUT)/hostile.objects/hostile.o $(ARCHIVE)
	$(CC) $(HOSTILE) $^ -o $@

$(OUT)/hostile.objects/hostile.o: tests/hostile.c $(HEADERS)
	@mkdir -p $(@D)
	$(CC) $(HOSTILE) -c $< -o $@

$(OUT)/hostile.objects/%.o: $(TERMINAL)/%.c $(HEADERS)
	@mkdir -p $(@D)
	$(CC) $(HOSTILE) -c $< -o $@
