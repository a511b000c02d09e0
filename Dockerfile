# An image for CI systems: mutest with its tools, on Debian 12. It is built in an unpacked archive of
# tools/package, or in this repository. No container engine was at hand: it is untried as it stands
# (docs/RELEASE.md says what was tried).
FROM debian:bookworm-slim
# python3 is for tools/survivors, tools/killers, tools/report-page, tools/lacks and tools/prepare, git for
# `survivors --changed`. Where a JDK is there too, tools/prepare knows the names of all its classes.
# hadolint ignore=DL3008
RUN apt-get update \
    && apt-get install -y --no-install-recommends git python3 \
    && rm -rf /var/lib/apt/lists/*
COPY mutest /opt/mutest/mutest
COPY dist /opt/mutest/dist
COPY tools /opt/mutest/tools
COPY examples /opt/mutest/examples
COPY library /opt/mutest/library
COPY crates/lib_table/specs /opt/mutest/crates/lib_table/specs
ENV MUTEST=/opt/mutest PATH=/opt/mutest:/opt/mutest/tools:$PATH
WORKDIR /work
CMD ["mutest"]
