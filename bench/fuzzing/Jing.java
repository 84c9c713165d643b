import com.thaiopensource.util.PropertyMap;
import com.thaiopensource.util.PropertyMapBuilder;
import com.thaiopensource.validate.ValidateProperty;
import com.thaiopensource.validate.ValidationDriver;
import com.thaiopensource.validate.rng.CompactSchemaReader;
import java.io.IOException;
import org.xml.sax.ErrorHandler;
import org.xml.sax.SAXException;
import org.xml.sax.SAXParseException;

/** For each byte that comes, a number, tells by jing of the document in the file `D` and the schema in the file `J` of the folder
 * of that number: `v` valid, `i` invalid, `u` where one of them isn't read. */
class Jing {
  private static class Faults implements ErrorHandler {
    private boolean unread = false;

    public void warning(SAXParseException fault) {}

    public void error(SAXParseException fault) {}

    public void fatalError(SAXParseException fault) throws SAXException {
      unread = true;
      throw fault;
    }
  }

  private static char answer(String folder) {
    Faults faults = new Faults();
    PropertyMapBuilder properties = new PropertyMapBuilder();
    properties.put(ValidateProperty.ERROR_HANDLER, faults);
    PropertyMap map = properties.toPropertyMap();
    ValidationDriver driver = new ValidationDriver(map, map, CompactSchemaReader.getInstance());
    try {
      if (!driver.loadSchema(ValidationDriver.fileInputSource(folder + "/J"))) return 'u';
      boolean valid = driver.validate(ValidationDriver.fileInputSource(folder + "/D"));
      return faults.unread ? 'u' : valid ? 'v' : 'i';
    } catch (SAXException | IOException | RuntimeException | Error fault) {
      return 'u';
    }
  }

  public static void main(String[] words) throws IOException {
    for (int order = System.in.read(); order >= 0; order = System.in.read()) {
      System.out.write(answer(String.format("%03d", order)));
      System.out.flush();
    }
  }
}
