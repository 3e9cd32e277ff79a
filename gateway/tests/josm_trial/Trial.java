import java.net.Authenticator;
import java.util.ArrayList;
import java.util.Date;
import java.util.List;
import java.util.concurrent.Callable;
import org.openstreetmap.josm.data.Bounds;
import org.openstreetmap.josm.data.coor.LatLon;
import org.openstreetmap.josm.data.notes.Note;
import org.openstreetmap.josm.data.osm.Changeset;
import org.openstreetmap.josm.data.osm.ChangesetDataSet;
import org.openstreetmap.josm.data.osm.DataSet;
import org.openstreetmap.josm.data.osm.Node;
import org.openstreetmap.josm.data.osm.OsmPrimitive;
import org.openstreetmap.josm.data.osm.OsmPrimitiveType;
import org.openstreetmap.josm.data.osm.Relation;
import org.openstreetmap.josm.data.osm.RelationMember;
import org.openstreetmap.josm.data.osm.SimplePrimitiveId;
import org.openstreetmap.josm.data.osm.UserInfo;
import org.openstreetmap.josm.data.osm.Way;
import org.openstreetmap.josm.data.preferences.JosmBaseDirectories;
import org.openstreetmap.josm.data.preferences.JosmUrls;
import org.openstreetmap.josm.data.projection.ProjectionRegistry;
import org.openstreetmap.josm.data.projection.Projections;
import org.openstreetmap.josm.gui.progress.NullProgressMonitor;
import org.openstreetmap.josm.gui.progress.ProgressMonitor;
import org.openstreetmap.josm.io.BoundingBoxDownloader;
import org.openstreetmap.josm.io.ChangesetClosedException;
import org.openstreetmap.josm.io.ChangesetQuery;
import org.openstreetmap.josm.io.MultiFetchServerObjectReader;
import org.openstreetmap.josm.io.OsmApi;
import org.openstreetmap.josm.io.OsmApiException;
import org.openstreetmap.josm.io.OsmApiPrimitiveGoneException;
import org.openstreetmap.josm.io.OsmJsonReader;
import org.openstreetmap.josm.io.OsmServerBackreferenceReader;
import org.openstreetmap.josm.io.OsmServerChangesetReader;
import org.openstreetmap.josm.io.OsmServerHistoryReader;
import org.openstreetmap.josm.io.OsmServerObjectReader;
import org.openstreetmap.josm.io.OsmServerUserInfoReader;
import org.openstreetmap.josm.io.OsmServerWriter;
import org.openstreetmap.josm.io.UploadStrategy;
import org.openstreetmap.josm.io.UploadStrategySpecification;
import org.openstreetmap.josm.io.auth.DefaultAuthenticator;
import org.openstreetmap.josm.spi.preferences.Config;
import org.openstreetmap.josm.spi.preferences.MemoryPreferences;
import org.openstreetmap.josm.tools.ExceptionUtil;
import org.openstreetmap.josm.tools.Http1Client;
import org.openstreetmap.josm.tools.HttpClient;

/** JOSM's own classes against a site: each trial is a line `+ NAME` or `- NAME WHY`. */
public final class Trial {
    // Elements ask for preferences as soon as their class is there.
    static {
        Config.setPreferencesInstance(new MemoryPreferences());
        Config.setBaseDirectoriesProvider(JosmBaseDirectories.getInstance());
        Config.setUrlsProvider(JosmUrls.getInstance());
        HttpClient.setFactory(Http1Client::new);
        ProjectionRegistry.setProjection(Projections.getProjectionByCode("EPSG:3857"));
    }

    private static final ProgressMonitor QUIET = NullProgressMonitor.INSTANCE;
    private static final List<OsmPrimitive> MADE = new ArrayList<>();
    private static final DataSet DATA = new DataSet();
    private static final Node FIRST = node(48.1412345, 11.5412345);
    private static final Node SECOND = node(48.1422222, 11.5422222);
    private static final Node THIRD = node(48.1433333, 11.5433333);
    private static final Way WAY = new Way();
    private static final Relation RELATION = new Relation();
    private static final List<OsmPrimitive> MORE = new ArrayList<>();
    private static OsmApi api;
    private static boolean wrong;

    private Trial() { }

    private static Node node(double lat, double lon) {
        Node it = new Node(new LatLon(lat, lon));
        DATA.addPrimitive(it);
        return it;
    }

    private static void trial(String name, Object wanted, Callable<Object> call) {
        String found;
        try {
            found = String.valueOf(call.call());
        } catch (Throwable why) {
            String header = why instanceof OsmApiException ? ((OsmApiException) why).getErrorHeader() : why.getMessage();
            found = why.getClass().getSimpleName() + ": " + header;
        }
        String text = wanted.toString();
        boolean right = text.endsWith("..") ? found.startsWith(text.substring(0, text.length() - 2)) : found.equals(text);
        wrong |= !right;
        System.out.println((right ? "+ " : "- ") + name + (right ? "" : ": wanted " + wanted + ", found " + found));
    }

    private static String shown(DataSet it) {
        long incomplete = it.allPrimitives().stream().filter(OsmPrimitive::isIncomplete).count();
        return it.getNodes().size() + " " + it.getWays().size() + " " + it.getRelations().size() + " " + incomplete;
    }

    private static Changeset changeset(String comment) {
        Changeset it = new Changeset();
        it.put("comment", comment);
        it.put("created_by", "a trial of JOSM");
        return it;
    }

    private static void upload(UploadStrategy how, boolean closes, Changeset to, List<? extends OsmPrimitive> what) throws Exception {
        int chunk = how == UploadStrategy.CHUNKED_DATASET_STRATEGY ? 2 : -1;
        UploadStrategySpecification as = new UploadStrategySpecification().setStrategy(how).setChunkSize(chunk).setCloseChangesetAfterUpload(closes);
        new OsmServerWriter().uploadOsm(as, new ArrayList<OsmPrimitive>(what), to, QUIET);
    }

    private static void upload(Changeset to, OsmPrimitive... what) throws Exception {
        upload(UploadStrategy.SINGLE_REQUEST_STRATEGY, false, to, List.of(what));
    }

    private static void start(String url) {
        Config.getPref().put("osm-server.url", url);
        Config.getPref().put("osm-server.auth-method", "basic");
        Config.getPref().put("osm-server.username", "alice");
        Config.getPref().put("osm-server.password", "alicetoken");
        Authenticator.setDefault(DefaultAuthenticator.getInstance());
        api = OsmApi.getOsmApi();
        trial("capabilities", "0.6 10000 2000", () -> {
            api.initialize(QUIET);
            return api.getVersion() + " " + api.getCapabilities().getMaxChangesetSize() + " " + api.getCapabilities().getMaxWayNodes();
        });
        trial("user details", "1 alice", () -> {
            UserInfo it = new OsmServerUserInfoReader().fetchUserInfo(QUIET);
            return it.getId() + " " + it.getDisplayName();
        });
    }

    private static void uploads(Changeset one) {
        WAY.setNodes(List.of(FIRST, SECOND, THIRD));
        WAY.put("highway", "path");
        DATA.addPrimitive(WAY);
        RELATION.addMember(new RelationMember("outer", WAY));
        RELATION.addMember(new RelationMember("", FIRST));
        RELATION.put("type", "site");
        DATA.addPrimitive(RELATION);
        FIRST.put("name", "B\u00e4ume \"<&>'\u200f\ud83c\udf33");
        MADE.addAll(List.of(FIRST, SECOND, THIRD, WAY, RELATION));
        trial("an upload by one request", "1 1 1 1 true", () -> {
            upload(UploadStrategy.SINGLE_REQUEST_STRATEGY, false, one, MADE);
            return FIRST.getId() + " " + FIRST.getVersion() + " " + WAY.getId() + " " + RELATION.getId() + " " + one.isOpen();
        });
        FIRST.setCoor(new LatLon(48.1412346, 11.5412345));
        FIRST.setModified(true);
        WAY.put("surface", "gravel");
        trial("an upload by single objects", "2 2", () -> {
            upload(UploadStrategy.INDIVIDUAL_OBJECTS_STRATEGY, false, one, List.of(FIRST, WAY));
            return FIRST.getVersion() + " " + WAY.getVersion();
        });
        for (int i = 0; i < 5; i++) {
            MORE.add(node(48.15 + i / 1000.0, 11.55));
        }
        trial("an upload in chunks, and a close", "true 1", () -> {
            upload(UploadStrategy.CHUNKED_DATASET_STRATEGY, true, one, MORE);
            api.closeChangeset(new Changeset(one.getId()), QUIET);
            return MORE.get(4).getId() > 0 ? "true " + MORE.get(4).getVersion() : "";
        });
    }

    private static void reads(Changeset one) {
        trial("a changeset", "1 false 12 one & <all>", () -> {
            Changeset it = new OsmServerChangesetReader().readChangeset(one.getId(), true, QUIET);
            return it.getId() + " " + it.isOpen() + " " + it.getChangesCount() + " " + it.getComment();
        });
        trial("the caller's changesets", 1, () -> new OsmServerChangesetReader().queryChangesets(ChangesetQuery.forCurrentUser(), QUIET).size());
        // JOSM writes the latitude of this box first, so it is turned here.
        trial("closed changesets of a box", 1, () -> new OsmServerChangesetReader()
            .queryChangesets(new ChangesetQuery().beingClosed(true).inBbox(new Bounds(11, 48, 12, 49)), QUIET).size());
        trial("changesets since", 1, () -> new OsmServerChangesetReader()
            .queryChangesets(new ChangesetQuery().closedAfter(new Date(0).toInstant()), QUIET).size());
        trial("changesets by ids", 1, () -> new OsmServerChangesetReader().readChangesets(List.of(1), false, QUIET).size());
        trial("a download of a changeset, of which each element counts once", 10, () -> {
            ChangesetDataSet it = new OsmServerChangesetReader().downloadChangeset(one.getId(), QUIET);
            return it.size();
        });
        trial("a box", "8 1 1 0", () -> shown(new BoundingBoxDownloader(new Bounds(48.1, 11.5, 48.2, 11.6)).parseOsm(QUIET)));
        trial("its texts and places", "B\u00e4ume \"<&>'\u200f\ud83c\udf33 48.1412346 11.5412345", () -> {
            DataSet it = new BoundingBoxDownloader(new Bounds(48.1, 11.5, 48.2, 11.6)).parseOsm(QUIET);
            Node found = (Node) it.getPrimitiveById(FIRST.getId(), OsmPrimitiveType.NODE);
            return found.get("name") + " " + found.lat() + " " + found.lon();
        });
        trial("a small box beside the meridian", "0 0 0 0", () -> shown(new BoundingBoxDownloader(new Bounds(-1e-4, -1e-4, 5e-4, 5e-4)).parseOsm(QUIET)));
        trial("a box that is too large", "OsmApiException: The maximum bbox size is 0.25, ..",
            () -> shown(new BoundingBoxDownloader(new Bounds(48, 11, 49, 12)).parseOsm(QUIET)));
        trial("many", "3 1 1 0 missing [node 999999]", () -> {
            MultiFetchServerObjectReader many = MultiFetchServerObjectReader.create(false);
            for (OsmPrimitive it : MADE) {
                many.append(it.getPrimitiveId());
            }
            many.append(new SimplePrimitiveId(999999, OsmPrimitiveType.NODE));
            return shown(many.parseOsm(QUIET)) + " missing " + many.getMissingPrimitives().toString().toLowerCase();
        });
        trial("a way in full", "3 1 0 0", () -> shown(new OsmServerObjectReader(WAY.getId(), OsmPrimitiveType.WAY, true).parseOsm(QUIET)));
        trial("a relation in full", "3 1 1 0", () -> shown(new OsmServerObjectReader(RELATION.getId(), OsmPrimitiveType.RELATION, true).parseOsm(QUIET)));
        trial("an old version", "path null", () -> {
            Way it = (Way) new OsmServerObjectReader(WAY.getId(), OsmPrimitiveType.WAY, 1).parseOsm(QUIET).getPrimitiveById(WAY.getPrimitiveId());
            return it.get("highway") + " " + it.get("surface");
        });
        trial("referrers", "3 1 1 0", () -> shown(new OsmServerBackreferenceReader(FIRST).setAllowIncompleteParentWays(false).parseOsm(QUIET)));
        trial("a history", 2, () -> new OsmServerHistoryReader(OsmPrimitiveType.NODE, FIRST.getId()).parseHistory(QUIET)
            .getHistory(FIRST.getId(), OsmPrimitiveType.NODE).getNumVersions());
    }

    private static void refusals(Changeset one) throws Exception {
        Changeset two = changeset("refusals");
        Node stale = new Node(FIRST.getId(), 1);
        stale.setCoor(new LatLon(1, 1));
        stale.setModified(true);
        trial("a conflict", "OsmApiException: Version mismatch: Provided 1, server had: 2 of Node 1", () -> {
            upload(two, stale);
            return "";
        });
        Node used = new Node(SECOND.getId(), 1);
        used.setCoor(new LatLon(1, 1));
        used.setDeleted(true);
        trial("a precondition, as JOSM reads it", "node 2 [way 1]", () -> {
            try {
                upload(two, used);
                return "";
            } catch (OsmApiException why) {
                var it = ExceptionUtil.parsePreconditionFailed(why.getErrorHeader());
                StringBuilder by = new StringBuilder();
                it.b.forEach(p -> by.append(p.getType().getAPIName()).append(' ').append(p.getUniqueId()));
                return it.a.getType().getAPIName() + " " + it.a.getUniqueId() + " [" + by + "]";
            }
        });
        OsmPrimitive gone = MORE.get(0);
        trial("a deletion", "true", () -> {
            gone.setDeleted(true);
            upload(two, gone);
            return gone.isDeleted();
        });
        Node again = new Node(gone.getId(), 2);
        again.setCoor(new LatLon(1, 1));
        again.setDeleted(true);
        trial("what is gone, as JOSM reads it", "node " + gone.getId(), () -> {
            try {
                upload(two, again);
                return "";
            } catch (OsmApiPrimitiveGoneException why) {
                return why.getPrimitiveType().getAPIName() + " " + why.getPrimitiveId();
            }
        });
        trial("a changeset that is closed, as JOSM reads it", "ChangesetClosedException 1 ..", () -> {
            Changeset closed = new Changeset(one.getId());
            closed.setOpen(true);
            closed.put("comment", "x");
            try {
                upload(closed, node(2, 2));
                return "";
            } catch (ChangesetClosedException why) {
                return "ChangesetClosedException " + why.getChangesetId() + " " + why.getClosedOn();
            }
        });
        trial("a comment on a changeset", "hm by alice", () -> {
            api.addCommentToChangeset(new Changeset(one.getId()), "hm", QUIET);
            var said = new OsmServerChangesetReader().readChangeset(one.getId(), true, QUIET).getDiscussion();
            return said.get(0).getText() + " by " + said.get(0).getUser().getName();
        });
        trial("a close", "false", () -> {
            api.closeChangeset(two, QUIET);
            return new OsmServerChangesetReader().readChangeset(two.getId(), false, QUIET).isOpen();
        });
    }

    private static void notes() {
        trial("a note, opened, commented on, closed, opened again", "OPEN 4", () -> {
            Note it = api.createNote(new LatLon(48.13, 11.53), "from JOSM <&>", QUIET);
            it = api.addCommentToNote(it, "more", QUIET);
            it = api.closeNote(it, "done", QUIET);
            it = api.reopenNote(it, "no", QUIET);
            return it.getState() + " " + it.getComments().size();
        });
        trial("notes of a box", "1 from JOSM <&>", () -> {
            List<Note> found = new BoundingBoxDownloader(new Bounds(48, 11, 49, 12)).parseNotes(100, 0, QUIET);
            return found.size() + " " + found.get(0).getFirstComment().getText();
        });
    }

    private static void json(String url) {
        trial("OSM's JSON, which this reader takes with a number as version alone", "IllegalDataException: ..", () -> shown(OsmJsonReader.parseDataSet(
            HttpClient.create(new java.net.URL(url + "/0.6/way/1/full.json")).connect().getContent(), QUIET)));
        trial("the same with a number", "3 1 0 0", () -> {
            String text = HttpClient.create(new java.net.URL(url + "/0.6/way/1/full.json")).connect().fetchContent().replace("\"version\":\"0.6\"", "\"version\":0.6");
            return shown(OsmJsonReader.parseDataSet(new java.io.ByteArrayInputStream(text.getBytes("UTF-8")), QUIET));
        });
    }

    public static void main(String[] words) throws Exception {
        start(words[0]);
        Changeset one = changeset("one & <all>");
        uploads(one);
        reads(one);
        refusals(one);
        notes();
        json(words[0]);
        System.exit(wrong ? 1 : 0);
    }
}
