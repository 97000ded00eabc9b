# Makes the archive of this repository's commit in an image that has the kit, and puts it into the folder `archive`:
#     docker build --build-arg KIT=IMAGE --file examples/ci/archive.Dockerfile --output type=local,dest=archive .
# IMAGE is one of your own, since no registry has the kit: it has the kit in /opt/rattle, its `rt` in the path, Python 3 and git.
# Where the program isn't built in this folder yet, it is proved and built there from nothing, which takes as long as README says.
ARG KIT
FROM ${KIT} AS build
COPY . /perses
WORKDIR /perses
RUN mkdir /archive && tools/release --folder /archive

FROM scratch
COPY --from=build /archive /
