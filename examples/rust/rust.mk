# How an application in Rust becomes an object file; examples/Makefile includes it.

# Where the sources of Rust's own library lie, which must be those of the compiler.
sources_of = $(shell $1 --print sysroot 2>/dev/null)/lib/rustlib/src/rust/library
# The first compiler on PATH that has them: one of rustup's, without its component rust-src, is passed over.
RUSTC := $(firstword $(foreach compiler,$(shell which -a rustc 2>/dev/null), \
    $(if $(wildcard $(call sources_of,$(compiler))/core/src/lib.rs),$(compiler))) rustc)
RUST_SOURCES := $(call sources_of,$(RUSTC))
RUST_TARGET = riscv32imc-unknown-none-elf
# What is built of them, for all applications; and of libtock, by how many ticks it takes for a millisecond.
CORE = $(CURDIR)/out/rust/library
LIBTOCK = $(CORE)/ticks_$(TICKS_PER_MS)
EDITION = 2021

# Code and constants are found from pc, as in C. The compiler is called where a relative path names the source: panics
# say that path, so that an image does not depend on where it is built, and a debugger finds the file all the same. The
# linker may make calls shorter, and accesses to static variables ones from gp (relax).
RUSTFLAGS = --target $(RUST_TARGET) -C opt-level=s -C panic=abort -C code-model=medium -C target-feature=+relax -g \
    -L $(CORE)
CHECKED = $(RUSTFLAGS) --edition $(EDITION) -C codegen-units=1 $(if $(APP),,-D warnings)

# Nothing; or, where there is no compiler, an old one, or no source of its library, how to come by one.
PACKAGES = on Debian 13, apt-get install rustc rust-src; on Debian 12, apt-get install rustc-web rust-web-src
rust_compiler = $(if $(shell which $(RUSTC) 2>/dev/null),,$(error there is no $(RUSTC): $(PACKAGES)))
rust_version = $(if $(shell $(RUSTC) -V | awk -F '[ .]' '$$2 > 1 || $$3 >= 85'),,$(error $(RUSTC) is older than 1.85: \
    $(PACKAGES)))
rust_library = $(if $(wildcard $(RUST_SOURCES)/core/src/lib.rs),,$(error $(RUSTC) has no sources of its library at \
    $(RUST_SOURCES): $(PACKAGES)))
rust = $(rust_compiler)$(rust_version)$(rust_library)

# What the compiler says, but for its warning each time that relax may change its name.
quietly = 2>$@.said; status=$$?; sed -e '/feature specified for .-Ctarget-feature.: .relax./,/^$$/d' \
    -e '/^warning: [0-9]* warnings\{0,1\} emitted/,/^$$/d' $@.said >&2; exit $$status

# core and alloc want what only a nightly compiler has, but for this variable. What stands in for compiler_builtins has
# what libgcc has not.
own = cd $1 && RUSTC_BOOTSTRAP=1 $(RUSTC) --crate-type rlib --crate-name $2 $(RUSTFLAGS) --cap-lints allow \
    --out-dir $(CORE) \
    --edition $$(sed -n 's/^edition = "\(.*\)"/\1/p' $(RUST_SOURCES)/core/Cargo.toml)

$(CORE)/libcore.rlib: rust/rust.mk $(CORE)/.compiler
	@echo "core and alloc of Rust are built, once"
	$(call own,$(RUST_SOURCES),core) core/src/lib.rs $(quietly)

$(CORE)/libcompiler_builtins.rlib: rust/compiler_builtins.rs $(CORE)/libcore.rlib
	$(call own,rust,compiler_builtins) compiler_builtins.rs $(quietly)

$(CORE)/liballoc.rlib: $(CORE)/libcompiler_builtins.rlib
	$(call own,$(RUST_SOURCES),alloc) alloc/src/lib.rs $(quietly)

$(LIBTOCK)/liblibtock.rlib: $(wildcard rust/libtock/*.rs) $(CORE)/liballoc.rlib
	@mkdir -p $(@D)
	cd rust && TICKS_PER_MS=$(TICKS_PER_MS) $(RUSTC) --crate-type rlib --crate-name libtock $(CHECKED) \
	    --out-dir $(@D) libtock/lib.rs $(quietly)

# Which compiler there is, where it has all that it needs; where it is and where the library is; and the library alone.
rust-version:
	@$(rust)$(RUSTC) --version
rust-places:
	@$(rust)echo $$(which $(RUSTC)) $(CORE)
rust-library: $(CORE)/liballoc.rlib

# A project of cargo's for an application in a folder of its own: what rust/ has for those of apps/.
PROJECT = $(FOLDER)/Cargo.toml
cargo:
	$(if $(APP),,$(of_no_project))$(if $(wildcard $(PROJECT)),$(error $(PROJECT): it is there already))
	mkdir -p $(FOLDER)/.cargo
	sed 's|"\./|"$(CURDIR)/rust/|' rust/.cargo/config.toml > $(FOLDER)/.cargo/config.toml
	sed -e '/^\[\[bin/,$$d' -e '1,2d' -e 's|"applications"|"$(NAME)"|; s|"libtock"|"$(CURDIR)/rust/libtock"|' \
	    rust/Cargo.toml > $(PROJECT)
	printf '[[bin]]\nname = "$(NAME)"\npath = "main.rs"\ntest = false\nbench = false\n' >> $(PROJECT)
	@echo "$(PROJECT) is there: cargo build, cargo run"

$(CORE)/.compiler: FORCE
	@$(rust)mkdir -p $(@D)
	@{ $(RUSTC) -vV; echo "$(RUSTFLAGS)"; } > $@.now; cmp -s $@.now $@ || cp $@.now $@

ifneq ($(OBJECTS),)
# Cargo has compiled it.
$(OUT)/%.o: FORCE | $(OUT)
	$(compiler)$(TOOLCHAIN)ld -m elf32lriscv -r -u main --start-group $(OBJECTS) --end-group -o $@
	$(tables)
else
# All of it is put into one archive, of which the application's part and what that needs of compiler_builtins remain.
$(OUT)/%.o: $$(wildcard $$(call folder,$$*)/*.rs $$(call folder,$$*)/*/*.rs) $(LIBTOCK)/liblibtock.rlib $(OUT)/.library
	cd $(call folder,$*)/.. && $(RUSTC) --crate-type staticlib --crate-name $(subst -,_,$*) $(CHECKED) -C lto=fat \
	    --extern libtock=$(LIBTOCK)/liblibtock.rlib -o $(abspath $(OUT))/$*.a $*/main.rs \
	    $(subst $@,$(abspath $@),$(quietly))
	$(compiler)$(TOOLCHAIN)ld -m elf32lriscv -r -u main $(OUT)/$*.a -o $@
	$(tables)
endif
